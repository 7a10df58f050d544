// Prints what Cap'n Proto's own C++ library makes of messages: the files that are named.
//
//     samples FILE...
//     samples --walk FILE...
//
// For each message comes the line 'canonical yes' or 'canonical no'. Then comes a line for each pointer of its root that isn't
// null, and each type that a schema may have there: a struct, or a list of structs, of texts, or of 32-bit numbers. The structs
// have a number of 32 bits and a text. A line has what each element is read as, or 'throws' where the library throws.
//
// With --walk it follows every pointer to a struct, under the library's default limits. It prints the words of the structs that it
// read, each as often as it was read, and the words of the file's segment. Then the same reader does it once more, and a line says
// whether the library throws.

#include <capnp/any.h>
#include <capnp/serialize.h>
#include <kj/debug.h>
#include <stdio.h>

#include <string>

namespace {

std::string quoted(capnp::Text::Reader text) { return std::string(" '") + text.cStr() + "'"; }

// The number at the start of a struct and the text at its pointer 0, as a schema with these two fields reads them.
std::string person(capnp::AnyStruct::Reader node) {
  auto pointers = node.getPointerSection();
  auto data = node.getDataSection();
  auto name = pointers.size() > 0 ? pointers[0].getAs<capnp::Text>() : capnp::Text::Reader();
  uint32_t id = 0;
  for (size_t at = 0; at < 4 && at < data.size(); at++) id |= static_cast<uint32_t>(data[at]) << 8 * at;
  return " (" + std::to_string(id) + quoted(name) + ")";
}

std::string aStruct(capnp::AnyPointer::Reader pointer) { return person(pointer.getAs<capnp::AnyStruct>()); }

std::string structs(capnp::AnyPointer::Reader pointer) {
  std::string text;
  // (what the library's own generated code calls)
  auto internal = capnp::_::PointerHelpers<capnp::AnyPointer>::getInternalReader(pointer);
  auto list = internal.getList(capnp::ElementSize::INLINE_COMPOSITE, nullptr);
  for (auto each : capnp::List<capnp::AnyStruct>::Reader(list)) text += person(each);
  return text;
}

std::string texts(capnp::AnyPointer::Reader pointer) {
  std::string text;
  for (auto each : pointer.getAs<capnp::List<capnp::Text>>()) text += quoted(each);
  return text;
}

std::string numbers(capnp::AnyPointer::Reader pointer) {
  std::string text;
  for (auto each : pointer.getAs<capnp::List<uint32_t>>()) text += " " + std::to_string(each);
  return text;
}

void line(uint number, const char *type, std::string (*read)(capnp::AnyPointer::Reader), capnp::AnyPointer::Reader pointer) {
  std::string text;
  try {
    text = read(pointer);
  } catch (const kj::Exception &) {
    text = " throws";
  }
  printf("p%u %s%s\n", number, type, text.c_str());
}

void sample(kj::ArrayPtr<const capnp::word> words) {
  printf("canonical %s\n", capnp::FlatArrayMessageReader(words).isCanonical() ? "yes" : "no");
  capnp::FlatArrayMessageReader reader(words);
  uint number = 0;
  try {
    for (auto pointer : reader.getRoot<capnp::AnyStruct>().getPointerSection()) {
      if (!pointer.isNull()) {
        line(number, "struct", aStruct, pointer);
        line(number, "structs", structs, pointer);
        line(number, "texts", texts, pointer);
        line(number, "numbers", numbers, pointer);
      }
      number++;
    }
  } catch (const kj::Exception &) {
    puts("root throws");
  }
}

// The words of the structs that a pointer leads to, with those below.
uint64_t walked(capnp::AnyPointer::Reader pointer) {
  auto node = pointer.getAs<capnp::AnyStruct>();
  uint64_t words = node.getDataSection().size() / sizeof(capnp::word) + node.getPointerSection().size();
  for (auto each : node.getPointerSection()) words += each.isNull() ? 0 : walked(each);
  return words;
}

void walk(kj::ArrayPtr<const capnp::word> words) {
  capnp::FlatArrayMessageReader reader(words);
  printf("walked %llu of %zu\n", static_cast<unsigned long long>(walked(reader.getRoot<capnp::AnyPointer>())), words.size() - 1);
  try {
    walked(reader.getRoot<capnp::AnyPointer>());
    puts("again walked");
  } catch (const kj::Exception &) {
    puts("again throws");
  }
}

}  // namespace

int main(int count, char **names) {
  bool walks = count > 1 && std::string(names[1]) == "--walk";
  for (int k = 1 + walks; k < count; k++) {
    FILE *file = fopen(names[k], "rb");
    if (file == nullptr) return fprintf(stderr, "samples: cannot open %s\n", names[k]), 2;
    auto words = kj::heapArray<capnp::word>(8192);
    size_t length = fread(words.begin(), sizeof(capnp::word), words.size(), file);
    fclose(file);
    (walks ? walk : sample)(words.slice(0, length));
  }
  return 0;
}
