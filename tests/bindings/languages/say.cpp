// say FILE WORDS CHARGE DEPTH FLAGS EXCLUSIVE: writes a JSON object for each message of a file, as say.c does, by the headers for
// libcapnp.
#include <capvet/kj.h>
#include <stdio.h>
#include <stdlib.h>
#include <string.h>

namespace {

kj::String quoted(kj::StringPtr text) {
  auto escaped = KJ_MAP(letter, text) { return letter == '\n' ? kj::str("\\n") : kj::str(letter); };
  return kj::str('"', kj::strArray(escaped, ""), '"');
}

kj::String broken(const capvet::Refusal &refusal) {
  const auto &report = refusal.report;
  auto text = kj::str("\"verdict\":\"broken\",\"reason\":\"", capvet_answer_name(refusal.answer), '"');
  switch (refusal.answer) {
    case CAPVET_NO_MESSAGE:
    case CAPVET_TRUNCATED: return kj::str(text, ",\"required\":", report.input_required);
    case CAPVET_TOO_MANY_SEGMENTS: return kj::str(text, ",\"segments\":", report.detail);
    case CAPVET_TOO_LARGE: return kj::str(text, ",\"words\":", report.detail);
    default: return kj::str(text, ",\"trailing_bytes\":", report.detail);
  }
}

kj::String refused(const capvet::Refusal &refusal) {
  const auto &report = refusal.report;
  auto text = kj::str("\"length\":", refusal.unvetted.size(), ",\"verdict\":\"refused\",\"reason\":\"",
                      capvet_answer_name(refusal.answer), '"');
  if (report.pointers > 0) {
    text = kj::str(text, ",\"segment\":", report.segment, ",\"word\":", report.word, ",\"pointer\":", report.pointers,
                   ",\"path\":", quoted(refusal.path()));
  }
  // (it is found for other reasons too)
  const auto earlier = refusal.earlierPath();
  if (refusal.answer == CAPVET_OVERLAP && earlier.size() > 0) text = kj::str(text, ",\"earlier_path\":", quoted(earlier));
  return kj::str(text, ",\"explain\":", quoted(refusal.explain()));
}

kj::String differing(const capvet::Vetted &message) {
  auto found = message.firstDifference();
  auto *it = capvet::detail::valueOf(found);
  if (it == nullptr) return kj::str();
  auto text = kj::str(",\"difference\":{\"reason\":\"", it->name, "\",\"segment\":", it->segment, ",\"word\":", it->word,
                      ",\"pointers\":", it->pointers);
  if (it->path.size() > 0) text = kj::str(text, ",\"path\":", quoted(it->path));
  return kj::str(text, '}');
}

kj::String accepted(const capvet::Vetted &message) {
  const auto &report = message.report();
  auto text = kj::str("\"length\":", message.bytes().size(), ",\"verdict\":\"accepted\",\"segments\":", report.segments,
                      ",\"words\":", report.words, ",\"charge\":", report.charge, ",\"depth\":", report.depth,
                      ",\"pointers\":", report.pointers, ",\"capabilities\":", report.capabilities);
  if (report.capabilities == 0) {
    uint32_t low = 1, high = 0;
    for (auto byte : message.canonical()) {
      low = (low + byte) % 65521;
      high = (high + low) % 65521;
    }
    text = kj::str(text, ",\"canonical\":", high << 16 | low);
  }
  return kj::str(text, ",\"is_canonical\":", message.isCanonical() ? "true" : "false", differing(message));
}

}  // namespace

int main(int count, char **words) {
  FILE *file = count == 7 ? fopen(words[1], "rb") : nullptr;
  if (file == nullptr) return fputs("usage: say FILE WORDS CHARGE DEPTH FLAGS EXCLUSIVE\n", stderr), 2;
  capvet::Options options;
  options.limits.message_words = strtoul(words[2], nullptr, 10);
  options.limits.charge = strtoul(words[3], nullptr, 10);
  options.limits.depth = static_cast<uint32_t>(strtoul(words[4], nullptr, 10));
  options.limits.flags = static_cast<uint32_t>(strtoul(words[5], nullptr, 10));
  options.exclusive = strcmp(words[6], "1") == 0;
  uint32_t length;
  for (unsigned long number = 0; fread(&length, 4, 1, file) == 1; number++) {
    auto bytes = kj::heapArray<kj::byte>(length);
    if (fread(bytes.begin(), 1, length, file) != length) return 3;
    capvet::Refusal refusal;
    auto found = capvet::tryVetted(kj::mv(bytes), refusal, options);
    auto *message = capvet::detail::valueOf(found);
    const auto said = message != nullptr                     ? accepted(*message)
                      : refusal.answer < CAPVET_NOT_CANONICAL ? broken(refusal)
                                                              : refused(refusal);
    puts(kj::str("{\"message\":", number, ',', said, '}').cStr());
  }
  return fclose(file);
}
