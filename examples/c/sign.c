/* Signs the content of a message, however it is encoded, and verifies such a signature.
 *
 *     export PKG_CONFIG_PATH=PREFIX/lib/pkgconfig
 *     cc sign.c $(pkg-config --cflags --libs capvet libcrypto) -o sign
 *     openssl genpkey -algorithm EC -pkeyopt ec_paramgen_curve:P-256 -out key.pem
 *     ./sign key.pem FILE > signature
 *
 * FILE is one message and nothing else. What is signed is the words of its canonical form, by their SHA-256. Send these words
 * with the signature:
 *
 *     capvet canon FILE > copy && tail -c +9 copy > words
 *
 * The owner of the public key verifies them. Then the words are checked in place, without a table and without a copy. They are
 * one message that a reader can follow, and no other canonical words have its content.
 *
 *     openssl pkey -in key.pem -pubout -out public.pem
 *     ./sign public.pem words signature
 *
 * The words don't name their schema. If one key signs messages of several schemas, sign the schema's name before them.
 *
 * The status is 0 if it is signed or verified. It is 1 if the message has no canonical form, if the signature is not of these
 * words, or if they are no canonical form. It is 2 for a wrong command line. It is 3 if a file can't be read, the key doesn't
 * sign, memory runs out or the output fails. */
#include <capvet.h>
#include <inttypes.h>
#include <openssl/evp.h>
#include <openssl/pem.h>
#include <stdio.h>
#include <stdlib.h>

/* The whole file, in a block of its own, or NULL. One byte more than it has, since malloc(0) may return NULL. */
static uint8_t *contents(const char *name, size_t *length) {
  FILE *file = fopen(name, "rb");
  uint8_t *bytes = NULL;
  long end;
  if (file == NULL) return NULL;
  if (fseek(file, 0, SEEK_END) == 0 && (end = ftell(file)) >= 0 && fseek(file, 0, SEEK_SET) == 0) {
    bytes = malloc((size_t)end + 1);
    *length = (size_t)end;
    if (bytes != NULL && fread(bytes, 1, *length, file) != *length) {
      free(bytes);
      bytes = NULL;
    }
  }
  fclose(file);
  return bytes;
}

/* The private key of a PEM file or, to verify, the public key; or NULL. */
static EVP_PKEY *key_of(const char *name, int is_private) {
  FILE *file = fopen(name, "r");
  EVP_PKEY *key = NULL;
  if (file == NULL) return NULL;
  key = is_private ? PEM_read_PrivateKey(file, NULL, NULL, NULL) : PEM_read_PUBKEY(file, NULL, NULL, NULL);
  fclose(file);
  return key;
}

/* Writes the signature of these bytes, and returns whether it worked. */
static int sign(EVP_PKEY *key, const uint8_t *bytes, size_t length) {
  EVP_MD_CTX *context = EVP_MD_CTX_new();
  unsigned char *signature = NULL;
  size_t size = 0;
  int good = context != NULL && EVP_DigestSignInit(context, NULL, EVP_sha256(), NULL, key) == 1 &&
             EVP_DigestSign(context, NULL, &size, bytes, length) == 1 && (signature = malloc(size)) != NULL &&
             EVP_DigestSign(context, signature, &size, bytes, length) == 1 &&
             fwrite(signature, 1, size, stdout) == size && fflush(stdout) == 0;
  free(signature);
  EVP_MD_CTX_free(context);
  return good;
}

/* Signs the canonical form of these bytes, and returns the exit status. Without flags the bytes have to be one message and
 * nothing else, and CAPVET_CANONICAL_BOUND bytes are always enough for its canonical form. */
static int sign_copy(EVP_PKEY *key, const uint8_t *bytes, size_t length) {
  const capvet_limits limits = CAPVET_LIMITS_INIT;
  const size_t bound = CAPVET_CANONICAL_BOUND(length);
  capvet_report report;
  uint8_t *copy = malloc(bound);
  size_t required;
  capvet_answer answer;
  int good;
  if (copy == NULL) return fputs("sign: out of memory\n", stderr), 3;
  answer = capvet_canonical(bytes, length, &limits, copy, bound, &required, &report);
  if (answer != CAPVET_OK) {
    free(copy);
    if (answer == CAPVET_TRAILING) return fputs("sign: bytes follow the message\n", stderr), 1;
    fprintf(stderr, "sign: no canonical form, %s", capvet_answer_name(answer));
    /* Without a frame there is no place, and a message of too many segments has none either. */
    if (report.length != 0 && answer != CAPVET_MANY_SEGMENTS)
      fprintf(stderr, " at %" PRIu32 ":%" PRIu32, report.segment, report.word);
    fputc('\n', stderr);
    return 1;
  }
  good = sign(key, copy, required);
  free(copy);
  return good ? 0 : (fputs("sign: it can't be signed\n", stderr), 3);
}

/* Whether the signature is of these bytes. */
static int is_signed(EVP_PKEY *key, const uint8_t *bytes, size_t length, const uint8_t *signature, size_t size) {
  EVP_MD_CTX *context = EVP_MD_CTX_new();
  int good = context != NULL && EVP_DigestVerifyInit(context, NULL, EVP_sha256(), NULL, key) == 1 &&
             EVP_DigestVerify(context, signature, size, bytes, length) == 1;
  EVP_MD_CTX_free(context);
  return good;
}

/* Verifies the signature of these words, then checks that they are a canonical form, and returns the exit status.
 *
 * The words have no table. They may be amplified: structs whose fields are all default lose their words in a canonical form. So the
 * limit for the charge is lower than the default: a reader of these words does no more work. */
static int verify_words(EVP_PKEY *key, const uint8_t *words, size_t length, const uint8_t *signature, size_t size) {
  capvet_limits limits = CAPVET_LIMITS_INIT;
  capvet_report report;
  capvet_answer answer;
  if (!is_signed(key, words, length, signature, size)) return fputs("sign: not signed by this key\n", stderr), 1;
  limits.charge = 1 << 20;
  answer = capvet_check_canonical_words(words, length, &limits, &report);
  if (answer != CAPVET_OK) return fprintf(stderr, "sign: signed, but %s\n", capvet_answer_name(answer)), 1;
  puts("verified");
  return 0;
}

static int cannot_read(const char *name) {
  fprintf(stderr, "sign: cannot read %s\n", name);
  return 3;
}

int main(int count, char **words) {
  size_t length = 0, size = 0;
  uint8_t *bytes, *signature;
  EVP_PKEY *key;
  int status;
  if (count != 3 && count != 4) return fputs("usage: sign PRIVATE FILE, or sign PUBLIC WORDS SIGNATURE\n", stderr), 2;
  key = key_of(words[1], count == 3);
  if (key == NULL) return cannot_read(words[1]);
  bytes = contents(words[2], &length);
  if (bytes == NULL) return cannot_read(words[2]);
  if (count == 3) {
    status = sign_copy(key, bytes, length);
  } else {
    signature = contents(words[3], &size);
    if (signature == NULL) return cannot_read(words[3]);
    status = verify_words(key, bytes, length, signature, size);
    free(signature);
  }
  free(bytes);
  EVP_PKEY_free(key);
  return status;
}
