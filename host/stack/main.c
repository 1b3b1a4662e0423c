// main LIMIT: the calls of session and node, each on a painted stack of its own (painted.h). Prints a line for each call and ends with 1
// where one went below LIMIT bytes or did not answer as it should. The line "nothing" is a call that does nothing.
#include <stdbool.h>

#include "painted.h"

uint32_t probe_nothing(void);
uint32_t probe_open_write(uint64_t opening);
uint32_t probe_open_read(uint64_t opening);
uint32_t probe_owed(bool read, bool storing, uint64_t bits, uint64_t node, const uint8_t *desk, size_t desk_len, uint8_t *request, size_t request_len);
uint32_t probe_write_reply(bool storing, uint64_t bits, const uint8_t *reply, size_t reply_len, uint8_t *desk, size_t desk_len, const uint8_t *item, size_t item_len);
uint32_t probe_read_reply(bool storing, uint64_t bits, const uint8_t *reply, size_t reply_len, uint8_t *desk, size_t desk_len, uint8_t *item, size_t item_len);
uint32_t probe_serve(const uint8_t *request, size_t request_len, uint8_t *book, size_t book_len, uint8_t *reply, size_t reply_len);
uint32_t probe_fresh(uint64_t node, uint8_t *book, size_t book_len);

// The plan of the probe, and the answers that its calls give as numbers.
enum { N = 16, M = 8, F = 1024, RECORD = 40 + 32 * N + F, DESK = N * RECORD, ITEM = M * F, BOOK = 65536, FRAME = RECORD + 15 };
enum { OPEN = 0, DONE = 1 };
// The marks of the sessions: nodes 0 to 11, nodes 3 to 14. One more reply makes N-t.
enum { FIRST_TWELVE = 0x0fff, THREE_ON = 0x7ff8 };

static uint8_t item[ITEM], other_item[ITEM], read_item[ITEM], desk[DESK], older[DESK], book[BOOK], request[FRAME], reply[FRAME], answer[FRAME];
static size_t request_len, reply_len;
static uint32_t said;

// The calls, each a function of nothing so that one thread can make any.
static void nothing(void) { said = probe_nothing(); }
static void open_write(void) { said = probe_open_write(1); }
static void open_read(void) { said = probe_open_read(1); }
static void owed_time(void) { said = probe_owed(false, false, FIRST_TWELVE, 12, desk, DESK, request, FRAME); }
static void owed_latest(void) { said = probe_owed(true, false, FIRST_TWELVE, 12, desk, DESK, request, FRAME); }
static void owed_record(void) { said = probe_owed(false, true, FIRST_TWELVE, 12, desk, DESK, request, FRAME); }
static void time_reply(void) { said = probe_write_reply(false, FIRST_TWELVE, reply, reply_len, desk, DESK, item, ITEM); }
static void older_time_reply(void) { said = probe_write_reply(false, FIRST_TWELVE, reply, reply_len, older, DESK, other_item, ITEM); }
static void write_reply(void) { said = probe_write_reply(true, FIRST_TWELVE, reply, reply_len, desk, DESK, item, ITEM); }
static void read_reply(void) { said = probe_read_reply(false, THREE_ON, reply, reply_len, desk, DESK, read_item, ITEM); }
static void repair_reply(void) { said = probe_read_reply(true, THREE_ON, reply, reply_len, desk, DESK, read_item, ITEM); }
static void fresh(void) { said = probe_fresh(12, book, BOOK); }
static void serve(void) { said = probe_serve(request, request_len, book, BOOK, answer, FRAME); }

static long limit, deepest;

static void measure(const char *what, void (*call)(void), uint32_t wanted) {
  long bytes = used(what, call);
  if (said != wanted) fail(what, "another answer than expected");
  printf("%6ld  %s\n", bytes, what);
  if (bytes > deepest) deepest = bytes;
}

// A frame of this kind from or for a node; `body` may be NULL.
static size_t frame(uint8_t *at, int kind, int node, int ask, const uint8_t *body, size_t length) {
  size_t rest = 11 + length;
  memset(at, 0, 15);
  at[2] = rest >> 8;
  at[3] = rest;
  at[4] = 1;
  at[5] = kind;
  at[6] = node;
  at[14] = ask;
  if (length) memcpy(at + 15, body, length);
  return 15 + length;
}

static void write_round(void) {
  const uint8_t nine[8] = {0, 0, 0, 0, 0, 0, 0, 9}, seven[8] = {0, 0, 0, 0, 0, 0, 0, 7};
  measure("owed: a time request", owed_time, OPEN);
  reply_len = frame(reply, 2, 12, 1, seven, 8);
  measure("write_reply: the time round ends (an older item)", older_time_reply, OPEN);
  reply_len = frame(reply, 2, 12, 1, nine, 8);
  measure("write_reply: the time round ends", time_reply, OPEN);
  measure("owed: a write request", owed_record, OPEN);
  reply_len = frame(reply, 4, 12, 2, desk, 40);
  measure("write_reply: done", write_reply, DONE);
}

// Sources 3 to 10, so that fragments 0, 1 and 2 of the item have to be computed; for the repair, 3 to 5 hold the older item.
static void read_rounds(void) {
  measure("owed: read latest", owed_latest, OPEN);
  reply_len = frame(reply, 7, 15, 1, desk + 15 * RECORD, RECORD);
  measure("read_reply: complete, validated, decoded, done", read_reply, DONE);
  if (memcmp(read_item, item, ITEM)) fail("read_reply", "not the item that was written");
  memcpy(desk + 3 * RECORD, older + 3 * RECORD, 3 * RECORD);
  measure("read_reply: unclassifiable, validated, the desk filled", read_reply, OPEN);
  memset(read_item, 0, ITEM);
  reply_len = frame(reply, 4, 15, 2, desk, 40);
  measure("read_reply: the repair round ends, done", repair_reply, DONE);
  if (memcmp(read_item, item, ITEM)) fail("read_reply", "not the item that was repaired");
}

static void node_calls(void) {
  measure("fresh", fresh, OPEN);
  request_len = frame(request, 3, 12, 1, desk + 12 * RECORD, RECORD);
  measure("serve: write, a new record", serve, OPEN);
  request_len = frame(request, 3, 12, 1, older + 12 * RECORD, RECORD);
  measure("serve: write, below another", serve, OPEN);
  measure("serve: write, a held record", serve, OPEN);
  request_len = frame(request, 1, 12, 1, NULL, 0);
  measure("serve: time", serve, OPEN);
  request_len = frame(request, 5, 12, 1, NULL, 0);
  measure("serve: read latest", serve, OPEN);
  request_len = frame(request, 6, 12, 1, desk + 12 * RECORD, 40);
  measure("serve: read previous", serve, OPEN);
}

int main(int argc, char **argv) {
  if (argc != 2 || (limit = atol(argv[1])) <= 0) fail("usage", "main LIMIT");
  for (size_t i = 0; i < ITEM; i++) {
    item[i] = i * 31 + (i >> 8);
    other_item[i] = i * 17 + 5;
  }
  used("nothing", nothing); // the first thread of a process also does what the C library does once
  measure("nothing", nothing, OPEN);
  measure("open_write", open_write, OPEN);
  measure("open_read", open_read, OPEN);
  write_round();
  read_rounds();
  node_calls();
  printf("%6ld  deepest, of %ld\n", deepest, limit);
  return deepest > limit;
}
