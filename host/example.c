/* example.c: saves a block and opens it again, over as few books in memory as its wish needs, with node 3 silent throughout. It prints
 * what happened and ends with 0 if the bytes that came back are those that were saved. In a real host `deliver` is a network, and the
 * node's half of it runs on another machine:
 *
 *   cc -Ihost host/example.c libpasis.a */
#include <inttypes.h>
#include <stdio.h>
#include <stdlib.h>
#include <string.h>

#include "pasis.h"

enum { MOST = PASIS_NODES_MOST, M = 2, F = 1024, SILENT = 3, RECORDS = 4 };

/* The wish: one node may be lost or lie, and two fragments give the block. `choose` finds N and Q. */
static struct pasis_plan values = {0, 1, 1, 0, M, F, PASIS_REPAIRABLE, PASIS_CRASH, 16};

/* N is known when the program runs: there is room for the most, and of the desk exactly N*R bytes are lent. */
static uint8_t plan[PASIS_PLAN_SIZE];
static uint8_t books[MOST][PASIS_BOOK_SIZE(MOST, F, RECORDS)];
static uint8_t session[PASIS_SESSION_SIZE], ending[PASIS_ENDING_SIZE];
static uint8_t desk[PASIS_DESK_SIZE(MOST, F)];
static uint8_t request[PASIS_FRAME_SIZE(MOST, F)], reply[PASIS_FRAME_SIZE(MOST, F)];

static void fail(const char *call, uint32_t answer) {
  fprintf(stderr, "example: %s: %" PRIu32 ", %s\n", call, answer, pasis_strerror(answer));
  exit(1);
}

/* The smallest plan for the wish. */
static void choose(void) {
  uint8_t counts[PASIS_COUNTS_SIZE];
  uint32_t answer = pasis_smallest_plan(values.member, values.t, values.b, values.m, counts, sizeof counts);
  if (answer != PASIS_OK) fail("pasis_smallest_plan", answer);
  values.N = counts[0];
  values.Q = counts[1];
  pasis_plan_bytes(&values, plan);
  printf("a plan of %u nodes\n", values.N);
}

/* Carries `request` to a node and its answer back into `reply`. False is silence: nothing came back in the time that the caller allows. */
static int deliver(unsigned node) {
  if (node == SILENT) return 0;
  uint32_t answer = pasis_node(plan, sizeof plan, request, (size_t)pasis_frame_length(request), books[node], sizeof books[node], reply,
                               sizeof reply);
  if (answer != PASIS_OK) {
    printf("  node %u refused its request: %s\n", node, pasis_strerror(answer));
    return 0; /* a refused request gets no reply frame */
  }
  /* Here a node on a disk makes its book durable; only then may the reply be sent. */
  return pasis_frame_node(reply) == node; /* the client's half: is it from whom the channel says? */
}

/* One reply, to a save (`saved` is the block) or to an open (`opened` is where it goes). */
static uint32_t hear(const uint8_t *saved, uint8_t *opened) {
  size_t length = (size_t)pasis_frame_length(reply), desk_len = pasis_desk_size(plan), item = PASIS_ITEM_SIZE(M, F);
  if (saved)
    return pasis_write_reply(plan, sizeof plan, session, sizeof session, reply, length, desk, desk_len, saved, item, ending,
                             sizeof ending);
  return pasis_read_reply(plan, sizeof plan, session, sizeof session, reply, length, desk, desk_len, opened, item, ending, sizeof ending);
}

/* Drives the open session to its ending, or to silence: a pass over all nodes that brings nothing new. */
static uint32_t drive(const uint8_t *saved, uint8_t *opened) {
  int news = 1;
  while (news) {
    news = 0;
    for (unsigned node = 0; node < values.N; node++) {
      uint32_t answer =
          pasis_owed(plan, sizeof plan, session, sizeof session, node, desk, pasis_desk_size(plan), request, sizeof request);
      if (answer == PASIS_REFUSED_HEARD) continue;
      if (answer != PASIS_OK) fail("pasis_owed", answer);
      printf("  kind %u to node %u: ", request[5], node);
      if (!deliver(node)) {
        printf("silence\n");
        continue;
      }
      answer = hear(saved, opened);
      printf("kind %u back, %s\n", reply[5], pasis_strerror(answer));
      if (pasis_is_ending(answer)) return answer;
      if (answer == PASIS_OK) news = 1;
    }
  }
  return PASIS_OK; /* still open: too few nodes answer, and the caller gives up */
}

int main(void) {
  if (pasis_interface() != PASIS_INTERFACE || pasis_session_size() != sizeof session) {
    fprintf(stderr, "example: the header and the archive are of different interfaces\n");
    return 1;
  }
  choose();
  for (unsigned node = 0; node < values.N; node++) {
    uint32_t answer = pasis_fresh_book(plan, sizeof plan, node, books[node], sizeof books[node]);
    if (answer != PASIS_OK) fail("pasis_fresh_book", answer);
  }

  static uint8_t block[PASIS_ITEM_SIZE(M, F)], back[PASIS_ITEM_SIZE(M, F)];
  for (size_t i = 0; i < sizeof block; i++) block[i] = (uint8_t)(i * i / 7);
  uint64_t ask = 1; /* from a counter on disk, raised by W+1 before each operation */

  printf("save\n");
  uint32_t answer = pasis_open_write(plan, sizeof plan, ask, session, sizeof session);
  if (answer != PASIS_OK) fail("pasis_open_write", answer);
  answer = drive(block, NULL);
  if (answer != PASIS_DONE) fail("the save", answer);
  printf("  saved as time %" PRIu64 "\n", pasis_ending_time(ending));

  printf("open\n");
  ask += values.W + 1u;
  answer = pasis_open_read(plan, sizeof plan, ask, session, sizeof session);
  if (answer != PASIS_OK) fail("pasis_open_read", answer);
  answer = drive(NULL, back);
  if (answer != PASIS_DONE) fail("the open", answer);
  printf("  opened time %" PRIu64 " in %u round(s)\n", pasis_ending_time(ending), pasis_ending_rounds(ending));

  int same = memcmp(block, back, sizeof block) == 0;
  printf("the %zu bytes that came back are %s\n", sizeof back, same ? "those that were saved" : "OTHERS");
  return same ? 0 : 1;
}
