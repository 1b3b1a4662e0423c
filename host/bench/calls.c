// calls WHO WHAT N M F: one timing of the protocol, printed as microseconds a call; the script ./bench takes the best of five.
//   WHO    ours: the calls of libpasis.a, on books and buffers in memory
//          floor: what cannot be avoided of the same work: its hashes by OpenSSL and its copies by memcpy, and nothing else
//   WHAT   time latest previous newest held: one request at a node whose book holds 20 records (newest: the 21st, put last)
//          save open: a whole save or open by one client over N books, N - t nodes answering
//          validated: the same open under Byzantine clients, where the client regenerates all N fragments and compares the cross checksum
//          run singly: 300 write requests at a node whose book holds 20 records, in one pasis_run, or in 300 calls of pasis_node; the figure is
//          of all 300. There is no floor for these: the single calls are what the run is held against
// A plan has t = b = 1 where N is 5, t = b = 2 where N is 16, crash clients (but for validated), the repairable member. The floor of a request at a node: a
// write hashes cross checksum and fragment and copies the record; a read copies it; a time request and a held record copy nothing (held:
// the hashes). Of a save: N fragment hashes and one of the cross checksum at the client, N records laid out, then at each of the N - t
// nodes the hashes and the copy of a write, and its frame. Ours makes the N books fresh before each save, and sets the book's first 11
// bytes back before each newest record and before each 300; both are in its time. Of an open: at N - t nodes the copy of a read, at the client the hashes of each
// record and its copy to the desk, and the item copied out; of a validated one also the N hashes, and not the making of the fragments. The 300 are new records of rising times, put behind the 20. A book of 65,536 bytes has room
// for all of them at N5 F4; at N5 F1024 for 33, and the other 267 are refused 8, after their hashes.
#define _POSIX_C_SOURCE 200809L
#define OPENSSL_SUPPRESS_DEPRECATED
#include <openssl/sha.h>
#include <stdio.h>
#include <stdlib.h>
#include <string.h>

#include "../pasis.h"
#include "pace.h"
#include "waiting.h"

enum { MOST = 16, HELD = 20, WAITING = 300, FRAME = 1607 };

static uint8_t plan[PASIS_PLAN_SIZE], item[MOST * 1024], back[MOST * 1024], session[PASIS_SESSION_SIZE], ending[PASIS_ENDING_SIZE];
static uint8_t books[MOST][PASIS_BOOK_MOST], head[11], desk[MOST * 1592], request[1607], reply[1607], hold[1607];
static uint8_t frames[WAITING * FRAME], replies[WAITING * FRAME], one_by_one[WAITING * FRAME], numbers[WAITING], other_numbers[WAITING];
static uint8_t told[PASIS_TOLD_SIZE], run_book[PASIS_BOOK_MOST];
static size_t n, t, m, f, record, frame_room, frames_len, replied;
static uint64_t ask = 1;

static void fail(const char *why) {
  fprintf(stderr, "calls: %s\n", why);
  exit(1);
}

// ---- ours
static void node(size_t i) {
  if (pasis_node(plan, sizeof plan, request, pasis_frame_length(request), books[i], PASIS_BOOK_MOST, reply, frame_room) != PASIS_OK)
    fail("a node refused");
}

static void owed(size_t i) {
  if (pasis_owed(plan, sizeof plan, session, sizeof session, i, desk, n * record, request, frame_room) != PASIS_OK)
    fail("no request is owed");
}

// One round: the first n - t nodes are asked and answer; the last answer is given back.
static uint32_t round_of(int reading) {
  uint32_t answer = 0;
  for (size_t i = 0; i < n - t; i++) {
    owed(i);
    node(i);
    answer = reading ? pasis_read_reply(plan, sizeof plan, session, sizeof session, reply, pasis_frame_length(reply), desk, n * record, back,
                                        m * f, ending, sizeof ending)
                     : pasis_write_reply(plan, sizeof plan, session, sizeof session, reply, pasis_frame_length(reply), desk, n * record, item,
                                         m * f, ending, sizeof ending);
    if (pasis_is_refusal(answer)) fail("a reply was refused");
  }
  return answer;
}

static void fresh_books(void) {
  for (size_t i = 0; i < n; i++)
    if (pasis_fresh_book(plan, sizeof plan, i, books[i], PASIS_BOOK_MOST) != PASIS_OK) fail("no fresh book");
}

static void ours_save(void) {
  if (pasis_open_write(plan, sizeof plan, ask, session, sizeof session) != PASIS_OK) fail("a write did not open");
  ask += 17;
  if (round_of(0) != PASIS_OK || round_of(0) != PASIS_DONE) fail("a save did not end");
}

static void ours_open(void) {
  if (pasis_open_read(plan, sizeof plan, ask, session, sizeof session) != PASIS_OK) fail("a read did not open");
  ask += 17;
  if (round_of(1) != PASIS_DONE) fail("an open did not end");
}

static void ours_first_save(void) {
  fresh_books();
  ours_save();
}

static void ours_request(void) { node(0); }

// The book's first 11 bytes as they were say that it holds 20 records again; what lies past its end is of no account.
static void ours_newest(void) {
  memcpy(books[0], head, sizeof head);
  node(0);
}

// The same before 300 requests: all new records go behind the 20.
static void ours_run(void) {
  memcpy(books[0], head, sizeof head);
  if (pasis_run(plan, sizeof plan, frames, frames_len, books[0], PASIS_BOOK_MOST, replies, WAITING * frame_room, numbers, sizeof numbers, told,
                sizeof told) != PASIS_OK)
    fail("a run was refused");
}

static void ours_singly(void) {
  memcpy(books[0], head, sizeof head);
  replied = 0;
  for (size_t i = 0; i < WAITING; i++) {
    uint32_t answer = pasis_node(plan, sizeof plan, frames + i * frame_room, frame_room, books[0], PASIS_BOOK_MOST, one_by_one + replied, frame_room);
    if (answer == PASIS_OK) replied += pasis_frame_length(one_by_one + replied);
    other_numbers[i] = (uint8_t)answer;
  }
}

// The 300 requests, and that both ways come to the same book, replies and numbers.
static void run_prepared(void) {
  memcpy(head, books[0], sizeof head);
  frames_len = waiting(plan, HELD + 1, WAITING, frames);
  if (frames_len != WAITING * frame_room) fail("no requests to wait");
  ours_run();
  memcpy(run_book, books[0], PASIS_BOOK_MOST);
  ours_singly();
  if (pasis_told_frames(told) != WAITING || pasis_told_place(told) != frames_len || pasis_told_replies(told) != replied ||
      memcmp(replies, one_by_one, replied) || memcmp(numbers, other_numbers, WAITING) || memcmp(run_book, books[0], PASIS_BOOK_MOST))
    fail("a run is not as its frames singly");
}

// A request frame of node 0, with the first `body` bytes of `from`.
static void make(unsigned kind, const uint8_t *from, size_t body) {
  memset(request, 0, PASIS_FRAME_HEAD);
  request[2] = (uint8_t)((11 + body) >> 8);
  request[3] = (uint8_t)(11 + body);
  request[4] = 1;
  request[5] = (uint8_t)kind;
  memcpy(request + PASIS_FRAME_HEAD, from, body);
}

// ---- the floor
static uint8_t digest[32];

static void hashed(const uint8_t *at, size_t bytes) {
  SHA256_CTX c;
  if (!SHA256_Init(&c) || !SHA256_Update(&c, at, bytes) || !SHA256_Final(digest, &c)) fail("OpenSSL refused");
}

static void both_hashes(const uint8_t *r) {
  hashed(r + 40, 32 * n);
  hashed(r + 40 + 32 * n, f);
}

static void floor_copy(void) { memcpy(hold, desk, record); }
static void floor_nothing(void) { memcpy(hold, desk, 23); }
static void floor_hashes(void) { both_hashes(desk); }
static void floor_write(void) {
  both_hashes(desk);
  memcpy(hold, desk, record);
}
static void floor_save(void) {
  for (size_t i = 0; i < n; i++) hashed(desk + i * record, f);
  hashed(desk, 32 * n);
  for (size_t i = 0; i < n; i++) memcpy(books[1] + i * record, desk + i * record, record);
  for (size_t i = 0; i < n - t; i++) {
    memcpy(hold, desk + i * record, record);
    floor_write();
  }
}
static void floor_open(void) {
  for (size_t i = 0; i < n - t; i++) {
    memcpy(hold, desk + i * record, record);
    both_hashes(desk + i * record);
    memcpy(books[1] + i * record, hold, record);
  }
  memcpy(back, item, m * f);
}

static void floor_validated(void) {
  floor_open();
  for (size_t i = 0; i < n; i++) hashed(desk + i * record, f);
}

// The seconds that a call of this work takes.
static double timed(int ours, const char *what) {
  if (!strcmp(what, "save")) return pace(ours ? ours_first_save : floor_save);
  if (!strcmp(what, "open") || !strcmp(what, "validated")) {
    if (!ours) return pace(what[0] == 'o' ? floor_open : floor_validated);
    double took = pace(ours_open);
    if (memcmp(back, item, m * f) != 0) fail("what was opened is not what was saved");
    return took;
  }
  if (!strcmp(what, "time")) return make(1, desk, 0), pace(ours ? ours_request : floor_nothing);
  if (!strcmp(what, "latest")) return make(5, desk, 0), pace(ours ? ours_request : floor_copy);
  if (!strcmp(what, "previous")) return make(6, books[0] + 11 + (HELD - 1) * record, 40), pace(ours ? ours_request : floor_copy);
  if (!strcmp(what, "held")) return make(3, books[0] + 11 + (HELD - 1) * record, record), pace(ours ? ours_request : floor_hashes);
  if (!strcmp(what, "newest")) {
    memcpy(head, books[0], sizeof head);
    ours_save();
    make(3, books[0] + 11 + HELD * record, record);
    return pace(ours ? ours_newest : floor_write);
  }
  if (ours && !strcmp(what, "run")) return run_prepared(), pace(ours_run);
  if (ours && !strcmp(what, "singly")) return run_prepared(), pace(ours_singly);
  fail("no such work");
  return 0;
}

int main(int count, char **words) {
  if (count != 6) fail("usage: calls ours|floor time|latest|previous|newest|held|save|open|validated|run|singly N M F");
  n = strtoul(words[3], NULL, 10), m = strtoul(words[4], NULL, 10), f = strtoul(words[5], NULL, 10);
  if (n > MOST || m > n || f > 1024) fail("N, m or F is too large");
  t = n < 16 ? 1 : 2;
  uint8_t clients = strcmp(words[2], "validated") ? PASIS_CRASH : PASIS_BYZANTINE;
  struct pasis_plan p = {(uint8_t)n, (uint8_t)t, (uint8_t)t, (uint8_t)(n - 2 * t), (uint8_t)m, (uint16_t)f, PASIS_REPAIRABLE, clients, 16};
  pasis_plan_bytes(&p, plan);
  record = PASIS_RECORD_SIZE(n, f), frame_room = PASIS_FRAME_SIZE(n, f);
  for (size_t i = 0; i < m * f; i++) item[i] = (uint8_t)(i * 2654435761u >> 13);
  fresh_books();
  for (int i = 0; i < HELD; i++) {
    item[0] = (uint8_t)i;
    ours_save();
  }
  printf("%.3f\n", timed(!strcmp(words[1], "ours"), words[2]) * 1e6);
  return 0;
}
