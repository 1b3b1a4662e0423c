// The write requests that wait for one node, for timings of runs: each is the request that a save of its own owes to node 0, made by the calls of a
// client that is told its times, so that no book is touched. The including file has included pasis.h.
#include <stdlib.h>
#include <string.h>

// Writes the requests of `count` saves, of times `first` on, one behind another, and gives their bytes; 0 where a call was refused. Each has
// the length 15 + R.
static size_t waiting(const uint8_t *plan, uint64_t first, size_t count, uint8_t *out) {
  size_t n = plan[0], t = plan[1], record = pasis_record_size(plan), block = pasis_item_size(plan), at = 0;
  uint8_t session[PASIS_SESSION_SIZE], ending[PASIS_ENDING_SIZE], told[PASIS_FRAME_HEAD + 8] = {0, 0, 0, 19, 1, 2};
  uint8_t *desk = malloc(n * record), *item = malloc(block);
  uint32_t answer = desk && item ? PASIS_OK : PASIS_REFUSED_LENGTH;
  for (size_t i = 0; i < count && answer == PASIS_OK; i++) {
    uint64_t ask = 17 * (first + i), above = first + i - 1;
    for (size_t k = 0; k < block; k++) item[k] = (uint8_t)((k + 1) * (first + i) * 2654435761u >> 13);
    for (size_t k = 0; k < 8; k++) told[7 + k] = (uint8_t)(ask >> (56 - 8 * k)), told[15 + k] = (uint8_t)(above >> (56 - 8 * k));
    answer = pasis_open_write(plan, PASIS_PLAN_SIZE, ask, session, sizeof session);
    for (size_t node = 0; node < n - t && answer == PASIS_OK; node++) {
      told[6] = (uint8_t)node;
      answer = pasis_write_reply(plan, PASIS_PLAN_SIZE, session, sizeof session, told, sizeof told, desk, n * record, item, block, ending,
                                 sizeof ending);
    }
    if (answer == PASIS_OK)
      answer = pasis_owed(plan, PASIS_PLAN_SIZE, session, sizeof session, 0, desk, n * record, out + at, record + PASIS_FRAME_HEAD);
    at += record + PASIS_FRAME_HEAD;
  }
  free(desk), free(item);
  return answer == PASIS_OK ? at : 0;
}
