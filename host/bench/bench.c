// bench WHO WHAT ..: one timing, printed as MB/s (10^6 bytes a second) of message or item bytes; the script ./bench takes the best of five.
//   bench ours|openssl sha256 BYTES
//   bench ours|openssl hashes COUNT BYTES    COUNT messages: ours side by side, OpenSSL's one after the other
//   bench ours|isal|isal-base|zfec encode|recover N M F
// Encode computes fragments M to N-1 of an item of M*F bytes; ours also copies the first M, which the others leave in place. Recover
// computes all M data fragments from the last M fragments. The others get their code's matrix and tables ready made, but for the
// inversion inside zfec's decoder; ours finds its weights in each call. What was recovered is compared with the item.
#define _POSIX_C_SOURCE 200809L
#define OPENSSL_SUPPRESS_DEPRECATED
#include <isa-l/erasure_code.h>
#include <openssl/sha.h>
#include <stdint.h>
#include <stdio.h>
#include <stdlib.h>
#include <string.h>

#include "fec.h"
#include "pace.h"

// The calls of the crate `primitives`: a slice is its pointer and then its length.
uint32_t primitives_sha256(const uint8_t *p, size_t p_len, const uint8_t *s, size_t s_len, uint8_t *out, size_t out_len);
uint32_t primitives_hashes(const uint8_t *heads, size_t heads_len, size_t h, const uint8_t *s, size_t s_len, size_t f, size_t count, uint8_t *out, size_t out_len);
uint32_t primitives_encode(const uint8_t *item, size_t item_len, size_t n, size_t m, size_t f, uint8_t *desk, size_t desk_len);
uint32_t primitives_decode(const uint8_t *desk, size_t desk_len, const uint8_t *nodes, size_t nodes_len, size_t m, size_t f, uint8_t *item, size_t item_len);

enum { MOST_NODES = 16, MOST_LENGTH = 1024, MOST_BYTES = 1 << 20 };

static void fail(const char *why) {
  fprintf(stderr, "bench: %s\n", why);
  exit(1);
}

// MB/s of `work`, of which each call serves `bytes` bytes.
static double rate(void (*work)(void), size_t bytes) { return (double)bytes / pace(work) / 1e6; }

// Bytes that look like any others, the same in each run.
static void fill(uint8_t *at, size_t n) {
  uint32_t x = 2463534242u;
  for (size_t i = 0; i < n; i++) {
    x ^= x << 13;
    x ^= x >> 17;
    x ^= x << 5;
    at[i] = x;
  }
}

// SHA-256.
static uint8_t message[MOST_BYTES], digest[32];
static size_t message_length;

static void ours_sha256(void) {
  if (primitives_sha256(message, 0, message, message_length, digest, 32) != 0) fail("primitives_sha256 refused");
}

static void openssl_sha256(void) {
  SHA256_CTX c;
  if (!SHA256_Init(&c) || !SHA256_Update(&c, message, message_length) || !SHA256_Final(digest, &c)) fail("OpenSSL refused");
}

static double hash(const char *who, size_t length) {
  if (length > MOST_BYTES) fail("too many bytes");
  message_length = length;
  fill(message, length);
  if (!strcmp(who, "ours")) return rate(ours_sha256, length);
  if (!strcmp(who, "openssl")) return rate(openssl_sha256, length);
  fail("no such hash");
  return 0;
}

// Several messages of one length.
static uint8_t digests[32 * MOST_NODES], others[32 * MOST_NODES];
static size_t messages;

static void ours_hashes(void) {
  if (primitives_hashes(message, 0, 0, message, messages * message_length, message_length, messages, digests, 32 * messages) != 0) fail("primitives_hashes refused");
}

static void openssl_hashes(void) {
  SHA256_CTX c;
  for (size_t i = 0; i < messages; i++)
    if (!SHA256_Init(&c) || !SHA256_Update(&c, message + i * message_length, message_length) || !SHA256_Final(others + 32 * i, &c)) fail("OpenSSL refused");
}

static double hashes(const char *who, size_t count, size_t length) {
  if (count > MOST_NODES || length > MOST_LENGTH) fail("too many messages, or too long");
  messages = count;
  message_length = length;
  fill(message, count * length);
  ours_hashes();
  openssl_hashes();
  if (memcmp(digests, others, 32 * count) != 0) fail("the hashes are not OpenSSL's");
  if (!strcmp(who, "ours")) return rate(ours_hashes, count * length);
  if (!strcmp(who, "openssl")) return rate(openssl_hashes, count * length);
  fail("no such hash");
  return 0;
}

// The fragment code: an item of m runs of f bytes, a desk of n fragments, and what was recovered.
static size_t n, m, f;
static uint8_t item[MOST_NODES * MOST_LENGTH], desk[MOST_NODES * MOST_LENGTH], back[MOST_NODES * MOST_LENGTH];
static uint8_t *desk_at[MOST_NODES], *back_at[MOST_NODES];

static void ours_encode(void) {
  if (primitives_encode(item, m * f, n, m, f, desk, n * f) != 0) fail("primitives_encode refused");
}

static void ours_recover(void) {
  uint8_t nodes[MOST_NODES];
  for (size_t i = 0; i < m; i++) nodes[i] = n - m + i;
  if (primitives_decode(desk, n * f, nodes, m, m, f, back, m * f) != 0) fail("primitives_decode refused");
}

// ISA-L: tables of 32 bytes for each entry of a matrix, for the parity rows and for the inverse of the last m rows.
typedef void isal_code(int len, int k, int rows, uint8_t *tables, uint8_t **data, uint8_t **coding);
static uint8_t parity_tables[32 * MOST_NODES * MOST_NODES], inverse_tables[32 * MOST_NODES * MOST_NODES];
static isal_code *isal;

static void isal_ready(isal_code *code) {
  uint8_t matrix[MOST_NODES * MOST_NODES], inverse[MOST_NODES * MOST_NODES];
  isal = code;
  gf_gen_cauchy1_matrix(matrix, n, m);
  ec_init_tables(m, n - m, matrix + m * m, parity_tables);
  if (gf_invert_matrix(matrix + (n - m) * m, inverse, m) != 0) fail("ISA-L has no inverse");
  ec_init_tables(m, m, inverse, inverse_tables);
}

static void isal_encode(void) { isal(f, m, n - m, parity_tables, desk_at, desk_at + m); }

static void isal_recover(void) { isal(f, m, m, inverse_tables, desk_at + n - m, back_at); }

// zfec: its code object, and the numbers of the fragments that are computed or given.
static fec_t *zfec;
static unsigned parity_numbers[MOST_NODES], source_numbers[MOST_NODES];

static void zfec_ready(void) {
  zfec = fec_new(m, n);
  for (size_t i = m; i < n; i++) parity_numbers[i - m] = i;
  for (size_t i = 0; i < m; i++) source_numbers[i] = n - m + i;
}

static void zfec_encode(void) {
  fec_encode(zfec, (const gf *const *)desk_at, desk_at + m, parity_numbers, n - m, f);
}

static void zfec_recover(void) { fec_decode(zfec, (const gf *const *)desk_at + n - m, back_at, source_numbers, f); }

// An item on the desk, encoded; then recovered, and compared; the rate of the one or of the other.
static double code(const char *who, const char *what) {
  void (*encode)(void) = NULL, (*recover)(void) = NULL;
  if (m < 1 || n > MOST_NODES || n < 2 * m || f < 1 || f > MOST_LENGTH) fail("N, m and F: the last m of N fragments are to be parity");
  for (size_t i = 0; i < MOST_NODES; i++) {
    desk_at[i] = desk + i * f;
    back_at[i] = back + i * f;
  }
  fill(item, m * f);
  memcpy(desk, item, m * f);
  if (!strcmp(who, "ours")) encode = ours_encode, recover = ours_recover;
  if (!strcmp(who, "isal")) isal_ready(ec_encode_data), encode = isal_encode, recover = isal_recover;
  if (!strcmp(who, "isal-base")) isal_ready(ec_encode_data_base), encode = isal_encode, recover = isal_recover;
  if (!strcmp(who, "zfec")) zfec_ready(), encode = zfec_encode, recover = zfec_recover;
  if (!encode) fail("no such code");
  encode();
  recover();
  if (memcmp(back, item, m * f) != 0) fail("what was recovered is not the item");
  if (!strcmp(what, "encode")) return rate(encode, m * f);
  if (!strcmp(what, "recover")) return rate(recover, m * f);
  fail("no such work");
  return 0;
}

int main(int count, char **words) {
  double mbs = 0;
  if (count == 4 && !strcmp(words[2], "sha256")) {
    mbs = hash(words[1], strtoul(words[3], NULL, 10));
  } else if (count == 5 && !strcmp(words[2], "hashes")) {
    mbs = hashes(words[1], strtoul(words[3], NULL, 10), strtoul(words[4], NULL, 10));
  } else if (count == 6) {
    n = strtoul(words[3], NULL, 10);
    m = strtoul(words[4], NULL, 10);
    f = strtoul(words[5], NULL, 10);
    mbs = code(words[1], words[2]);
  } else {
    fail("usage: bench WHO sha256 BYTES, bench WHO hashes COUNT BYTES, or bench WHO encode|recover N M F");
  }
  printf("%.1f\n", mbs);
  return 0;
}
