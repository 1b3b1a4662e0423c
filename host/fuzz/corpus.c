/* corpus FILE...: stored inputs, each run through host/fuzz/target.c; no fuzzer is needed. Writes how many inputs and calls there were and
 * which answers were met; the first call that breaks its word ends it. */
#include <stdint.h>
#include <stdio.h>
#include <stdlib.h>

int LLVMFuzzerTestOneInput(const uint8_t *data, size_t size);
enum { CALLS = 9 };
extern unsigned long fuzz_answers[CALLS][128];

static uint8_t input[1 << 16];

int main(int count, char **files) {
  for (int i = 1; i < count; i++) {
    FILE *file = fopen(files[i], "rb");
    if (!file) return perror(files[i]), 2;
    size_t size = fread(input, 1, sizeof input, file);
    fclose(file);
    LLVMFuzzerTestOneInput(input, size);
  }
  unsigned long calls = 0, kinds = 0;
  for (int call = 0; call < CALLS; call++)
    for (int answer = 0; answer < 128; answer++) {
      calls += fuzz_answers[call][answer];
      kinds += fuzz_answers[call][answer] != 0;
    }
  printf("corpus: %d inputs, %lu calls, %lu pairs of a call and its answer met\n", count - 1, calls, kinds);
  return count > 1 && calls > 0 ? EXIT_SUCCESS : EXIT_FAILURE;
}
