/* One input of bytes as a sequence of calls of libpasis.a, each held to what every caller may rely on: the answer is one of the call's
 * own; a slice that the call may only read keeps its bytes, and at a refusal every slice does; a frame that was written has its length,
 * and the bytes past it stay; a book changes by a write request alone; item and ending are written at their endings alone; a time reply
 * sets the time of its node in the session, and nothing sets another; a wish gets the first N and Q that an opening accepts; a run of
 * frames is cut where it should be and comes to what its frames come to singly; the same call on the same bytes does the same again. Each slice is lent as memory of exactly its length, with a fence on both sides.
 *
 * The first bytes choose a plan, the rest are steps: a call, a change to what will be lent next, or a whole exchange of a client with a
 * node, so that deep states are near. host/try-corpus runs stored inputs; ./fuzz finds new ones. */
#include "../pasis.h"

#include <stdio.h>
#include <stdlib.h>
#include <string.h>

int LLVMFuzzerTestOneInput(const uint8_t *data, size_t size);

/* Under a sanitizer the memory around a slice is watched; elsewhere these bytes are looked at. */
#if defined(__has_feature)
#if __has_feature(address_sanitizer)
#define FENCE 0
#endif
#endif
#ifndef FENCE
#define FENCE 32
#endif

/* ---- The calls ---- */

enum { SLICES = 6, NODES = 16, BOOK = 4096 };

typedef uint8_t *const *Lent;
typedef const size_t *Lengths;

static uint64_t number(const uint8_t *at, size_t bytes) {
  uint64_t n = 0;
  for (size_t i = 0; i < bytes; i++) n = n << 8 | at[i];
  return n;
}

static uint32_t call_fresh(Lent p, Lengths n, uint64_t k) { return pasis_fresh_book(p[0], n[0], k, p[1], n[1]); }
static uint32_t call_node(Lent p, Lengths n, uint64_t k) {
  (void)k;
  return pasis_node(p[0], n[0], p[1], n[1], p[2], n[2], p[3], n[3]);
}
static uint32_t call_open_write(Lent p, Lengths n, uint64_t k) { return pasis_open_write(p[0], n[0], k, p[1], n[1]); }
static uint32_t call_open_read(Lent p, Lengths n, uint64_t k) { return pasis_open_read(p[0], n[0], k, p[1], n[1]); }
static uint32_t call_owed(Lent p, Lengths n, uint64_t k) { return pasis_owed(p[0], n[0], p[1], n[1], k, p[2], n[2], p[3], n[3]); }
static uint32_t call_write_reply(Lent p, Lengths n, uint64_t k) {
  (void)k;
  return pasis_write_reply(p[0], n[0], p[1], n[1], p[2], n[2], p[3], n[3], p[4], n[4], p[5], n[5]);
}
static uint32_t call_read_reply(Lent p, Lengths n, uint64_t k) {
  (void)k;
  return pasis_read_reply(p[0], n[0], p[1], n[1], p[2], n[2], p[3], n[3], p[4], n[4], p[5], n[5]);
}
static uint32_t call_run(Lent p, Lengths n, uint64_t k) {
  (void)k;
  return pasis_run(p[0], n[0], p[1], n[1], p[2], n[2], p[3], n[3], p[4], n[4], p[5], n[5]);
}
/* A wish is lent to no call; as a slice of 25 bytes (member, t, b, m) it goes the way of the others. */
static uint32_t call_smallest(Lent p, Lengths n, uint64_t k) {
  (void)k;
  return pasis_smallest_plan(p[0][0], number(p[0] + 1, 8), number(p[0] + 9, 8), number(p[0] + 17, 8), p[1], n[1]);
}

struct call {
  const char *name;
  uint32_t (*make)(Lent, Lengths, uint64_t);
  unsigned slices, written; /* written: a bit for each slice that the call may write */
  uint8_t answers[20];      /* other than 0 */
};

enum { FRESH, NODE, OPEN_WRITE, OPEN_READ, OWED, WRITE_REPLY, READ_REPLY, SMALLEST, RUN, CALLS };

static const struct call calls[CALLS] = {
    {"fresh_book", call_fresh, 2, 1 << 1, {1, 2, 4}},
    {"node", call_node, 4, 1 << 2 | 1 << 3, {1, 2, 3, 4, 5, 6, 7, 8}},
    {"open_write", call_open_write, 2, 1 << 1, {1, 2, 13}},
    {"open_read", call_open_read, 2, 1 << 1, {1, 2, 13}},
    {"owed", call_owed, 4, 1 << 3, {1, 2, 9, 14, 4, 11}},
    {"write_reply", call_write_reply, 6, 1 << 1 | 1 << 3 | 1 << 5, {1, 2, 9, 14, 4, 10, 11, 101, 105}},
    {"read_reply", call_read_reply, 6, 1 << 1 | 1 << 3 | 1 << 4 | 1 << 5, {1, 2, 9, 14, 4, 10, 11, 5, 6, 12, 101, 102, 103, 104}},
    {"smallest_plan", call_smallest, 2, 1 << 1, {1, 2, 20}},
    {"run", call_run, 6, 1 << 2 | 1 << 3 | 1 << 4 | 1 << 5, {1, 2, 21, 3}},
};

/* Each call and answer that was met, for a fuzzer to see. */
#ifdef __linux__
__attribute__((section("__libfuzzer_extra_counters")))
#endif
static uint8_t met[CALLS * 128];

/* Calls of this input so far, and the most of one: inputs stay quick. */
enum { MOST = 250 };
static unsigned made;

unsigned long fuzz_answers[CALLS][128]; /* the same, counted over all inputs, for replay */

/* ---- What is lent ---- */

struct slice {
  uint8_t *bytes;
  size_t len;
};

static void expect(int holds, const struct call *call, uint32_t answer, const char *what) {
  if (holds) return;
  fprintf(stderr, "fuzz: pasis_%s answered %u: %s\n", call->name, (unsigned)answer, what);
  abort();
}

static uint8_t *lend(const struct slice *s) {
  uint8_t *room = malloc(s->len + 2 * FENCE + (FENCE == 0 && s->len == 0));
  if (!room) abort();
  memset(room, 0xa5, FENCE);
  if (s->len) memcpy(room + FENCE, s->bytes, s->len);
  memset(room + FENCE + s->len, 0xa5, FENCE);
  return room;
}

static int fenced(const uint8_t *room, size_t len) {
  for (size_t i = 0; i < FENCE; i++)
    if (room[i] != 0xa5 || room[FENCE + len + i] != 0xa5) return 0;
  return 1;
}

static int same(const uint8_t *a, const uint8_t *b, size_t from, size_t to) { return from >= to || !memcmp(a + from, b + from, to - from); }

/* The frame that a call wrote into a buffer: its length, and nothing past it. */
static void frame_written(const struct call *call, const struct slice *plan, const uint8_t *now, const struct slice *before) {
  size_t record = 40 + 32 * (size_t)plan->bytes[0] + number(plan->bytes + 5, 2);
  size_t length = number(now, 4) + 4;
  expect(length >= 15 && length <= record + 15 && length <= before->len, call, 0, "the frame has no frame's length");
  expect(same(now, before->bytes, length, before->len), call, 0, "a byte past the frame changed");
}

/* The times of a session, 8 bytes for each of 16 nodes. */
static void times_told(const struct call *call, uint32_t answer, const uint8_t *now, const struct slice *s) {
  enum { TIMES = 53, STAMP = 181 };
  const uint8_t *before = s[1].bytes, *told = s[2].bytes;
  size_t from = told[5] == 2 ? TIMES + 8 * (size_t)told[6] : STAMP, to = told[5] == 2 ? from + 8 : STAMP;
  expect(same(now, before, TIMES, from) && same(now, before, to, STAMP), call, answer, "the time of another node changed");
  expect(from == STAMP || !memcmp(now + from, told + 15, 8), call, answer, "the session has another time than this node told");
}

/* ---- Runs ---- */

enum { RUN_MOST = 2048, FRAMES_MOST = RUN_MOST / 15 };

/* Where the frame at a place of a run ends; the place itself where the run does. */
static size_t frame_end(const struct slice *run, size_t at) {
  if (run->len - at < 4) return at;
  uint64_t length = number(run->bytes + at, 4);
  return length < 11 || length > run->len - at - 4 ? at : at + 4 + (size_t)length;
}

/* How many frames a run has, and the place where it ends. */
static size_t frames_cut(const struct slice *run, size_t *place) {
  size_t frames = 0, end;
  for (*place = 0; (end = frame_end(run, *place)) > *place; *place = end) frames++;
  return frames;
}

static size_t record_length(void);

/* A run that was served: what it tells, and its frames at pasis_node, one after another, on a copy of the book. */
static void ran(uint8_t *const *now, const struct slice *s) {
  const struct call *call = &calls[RUN];
  static uint8_t book[65536], reply[40 + 32 * 16 + 1024 + 15];
  size_t place, frames = frames_cut(&s[1], &place), at = 0, end = 0;
  expect(number(now[5], 8) == frames && number(now[5] + 16, 8) == place, call, 0, "not the frames or the place of this run");
  memcpy(book, s[2].bytes, s[2].len);
  for (size_t i = 0; i < frames; i++) {
    size_t to = frame_end(&s[1], at);
    uint32_t answer = pasis_node(s[0].bytes, s[0].len, s[1].bytes + at, to - at, book, s[2].len, reply, record_length() + 15);
    expect(answer == now[4][i] && (answer == 0 || (answer >= 4 && answer <= 8)), call, 0, "a frame has another number singly");
    size_t length = answer ? 0 : (size_t)number(reply, 4) + 4;
    expect(end + length <= s[3].len && !memcmp(now[3] + end, reply, length), call, 0, "a frame has another reply singly");
    end += length;
    at = to;
  }
  expect(number(now[5] + 8, 8) == end, call, 0, "not the bytes of replies that were written");
  expect(!memcmp(now[2], book, s[2].len), call, 0, "the frames leave another book singly");
  expect(same(now[3], s[3].bytes, end, s[3].len), call, 0, "a byte past the replies changed");
  expect(same(now[4], s[4].bytes, frames, s[4].len), call, 0, "a byte past the numbers changed");
}

/* After 1, 2 exactly where the book or what is told has a wrong length; then 21 exactly where there is too little room; 3 after both. */
static void roomed(uint32_t answer, const struct slice *s) {
  size_t place, frames = frames_cut(&s[1], &place);
  int lengths = s[2].len >= PASIS_BOOK_LEAST && s[2].len <= PASIS_BOOK_MOST && s[5].len == PASIS_TOLD_SIZE;
  int enough = s[3].len >= frames * (record_length() + 15) && s[4].len >= frames;
  expect(answer == 1 || lengths == (answer != 2), &calls[RUN], answer, "the lengths of book and told say otherwise");
  expect(answer == 1 || answer == 2 || enough == (answer != 21), &calls[RUN], answer, "the room for replies and numbers says otherwise");
}

/* What a call that was not refused may have changed. */
static void accepted(unsigned which, uint32_t answer, uint8_t *const *now, const struct slice *s) {
  const struct call *call = &calls[which];
  if (which == FRESH) expect(same(now[1], s[1].bytes, 11, s[1].len), call, answer, "a byte past a fresh book's first 11 changed");
  if (which == OWED || which == NODE) frame_written(call, s, now[3], &s[3]);
  if (which == NODE && memcmp(now[2], s[2].bytes, s[2].len)) {
    expect(s[1].bytes[5] == 3, call, answer, "a book changed at a request that is no write");
    expect(number(now[2] + 9, 2) == number(s[2].bytes + 9, 2) + 1, call, answer, "a book changed, and not by one record");
    expect(same(now[2], s[2].bytes, number(now[2], 4) + 4, s[2].len), call, answer, "a byte past the book's end changed");
  }
  if (which == RUN) ran(now, s);
  if (which == WRITE_REPLY || which == READ_REPLY) times_told(call, answer, now[1], s);
  if (which == WRITE_REPLY || which == READ_REPLY)
    expect(answer != 0 || same(now[5], s[5].bytes, 0, s[5].len), call, answer, "the ending was written, and nothing ended");
  if (which == READ_REPLY)
    expect(answer == 101 || same(now[4], s[4].bytes, 0, s[4].len), call, answer, "the item was written, and the read is not done");
}

/* The first N and Q that an opening accepts for this wish with F 1 and W 1, as N times 256 and Q; 0 where there is none. */
static unsigned first_accepted(const uint8_t *wish) {
  static uint8_t opened[PASIS_SESSION_SIZE];
  if (number(wish + 1, 8) > 255 || number(wish + 9, 8) > 255 || number(wish + 17, 8) > 255) return 0;
  for (uint8_t n = 1; n <= NODES; n++)
    for (uint8_t q = 0; q <= NODES; q++) {
      const uint8_t tried[] = {n, wish[8], wish[16], q, wish[24], 0, 1, wish[0], 0, 0, 1};
      if (pasis_open_read(tried, sizeof tried, 0, opened, sizeof opened) == 0) return n << 8 | q;
    }
  return 0;
}

/* The one answer to a wish, and what is written with it. */
static void wished(uint32_t answer, const uint8_t *counts, const struct slice *s) {
  const uint8_t *wish = s[0].bytes;
  unsigned first = first_accepted(wish);
  uint32_t right = first ? 0 : 20;
  if (s[1].len != 2) right = 2;
  if (wish[0] > 1 || number(wish + 9, 8) > number(wish + 1, 8) || number(wish + 17, 8) == 0) right = 1;
  expect(answer == right, &calls[SMALLEST], answer, "not the answer to this wish");
  expect(answer || number(counts, 2) == first, &calls[SMALLEST], answer, "not the first N and Q that an opening accepts");
}

static uint32_t make(unsigned which, struct slice *s, uint64_t k) {
  const struct call *call = &calls[which];
  uint8_t *rooms[2][SLICES], *at[2][SLICES];
  size_t lengths[SLICES];
  uint32_t answers[2];
  for (unsigned turn = 0; turn < 2; turn++) {
    for (unsigned i = 0; i < call->slices; i++) {
      rooms[turn][i] = lend(&s[i]);
      at[turn][i] = rooms[turn][i] + FENCE;
      lengths[i] = s[i].len;
    }
    answers[turn] = call->make(at[turn], lengths, k);
  }
  uint32_t answer = answers[0];
  expect(answer == 0 || (answer < 128 && memchr(call->answers, (int)answer, sizeof call->answers)), call, answer, "no answer of this call");
  expect(answer == answers[1], call, answer, "another answer to the same bytes");
  for (unsigned i = 0; i < call->slices; i++) {
    expect(fenced(rooms[0][i], s[i].len), call, answer, "a byte outside a slice changed");
    expect(same(at[0][i], at[1][i], 0, s[i].len), call, answer, "other bytes from the same bytes");
    int stays = (answer >= 1 && answer <= 31) || !(call->written >> i & 1);
    expect(!stays || same(at[0][i], s[i].bytes, 0, s[i].len), call, answer, "a byte changed that must stay");
  }
  if (answer == 0 || answer > 31) accepted(which, answer, at[0], s);
  if (which == SMALLEST) wished(answer, at[0][1], s);
  if (which == RUN) roomed(answer, s);
  for (unsigned i = 0; i < call->slices; i++) {
    if (s[i].len) memcpy(s[i].bytes, at[0][i], s[i].len);
    free(rooms[0][i]);
    free(rooms[1][i]);
  }
  made++;
  met[which * 128 + answer]++;
  fuzz_answers[which][answer]++;
  return answer;
}

/* ---- The steps of an input ---- */

static const uint8_t plans[][11] = {
    {5, 1, 1, 3, 2, 0, 4, 0, 0, 0, 3},  {7, 1, 1, 3, 4, 0, 3, 1, 0, 0, 2}, {1, 0, 0, 1, 1, 0, 1, 0, 0, 0, 1},
    {3, 1, 0, 2, 1, 0, 8, 0, 1, 0, 16}, {7, 1, 1, 3, 2, 0, 5, 1, 1, 0, 4}, {16, 3, 2, 6, 3, 0, 2, 0, 1, 255, 255},
    {5, 1, 1, 3, 2, 0, 4, 0, 1, 0, 1},
};

static uint8_t plan[16], session[256], frame[2048], reply[2048], books[NODES][BOOK], desk[NODES * 1600], item[NODES * 1024], ending[64];
static uint8_t wish[25], counts[3];
static uint8_t run[RUN_MOST], replies[FRAMES_MOST * (40 + 32 * 16 + 1024 + 15) + 1], numbers[FRAMES_MOST + 1], told[PASIS_TOLD_SIZE + 1];
static size_t run_length;

/* R of a plan whose N and F are in their ranges; else what a run with no room to be had is lent for one. */
static size_t record_length(void) {
  size_t n = plan[0], f = number(plan + 5, 2);
  return n <= NODES && f <= 1024 ? 40 + 32 * n + f : 0;
}

static struct {
  const uint8_t *at;
  size_t left;
} input;

static size_t take(unsigned bytes) {
  size_t n = 0;
  for (; bytes; bytes--) {
    n = n << 8 | (input.left ? *input.at : 0);
    if (input.left) input.at++, input.left--;
  }
  return n;
}

static void choose_plan(struct slice *p) {
  size_t which = take(1);
  size_t known = sizeof plans / sizeof *plans;
  if (which < 240) memcpy(plan, plans[which % known], 11);
  else
    for (size_t i = 0; i < 11; i++) plan[i] = (uint8_t)take(1);
  *p = (struct slice){plan, which < 250 ? 11 : take(1) % sizeof plan};
}

struct lent {
  struct slice plan, session, frame, reply, book[NODES], desk, item, ending;
};

/* All memory as at the start of every input: sessions and frames of zeros, an item of small numbers, books not made. */
static void prepare(struct lent *l) {
  size_t n = plan[0], f = number(plan + 5, 2), record = 40 + 32 * n + f;
  memset(session, 0, sizeof session), memset(frame, 0, sizeof frame), memset(reply, 0, sizeof reply);
  run_length = 0;
  memset(books, 0, sizeof books), memset(desk, 0, sizeof desk), memset(ending, 0, sizeof ending);
  for (size_t i = 0; i < sizeof item; i++) item[i] = (uint8_t)(i * 7 + 1);
  int fits = n <= NODES && plan[4] <= NODES && f <= 1024;
  l->session = (struct slice){session, PASIS_SESSION_SIZE};
  l->frame = (struct slice){frame, fits ? record + 15 : 15};
  l->reply = (struct slice){reply, fits ? record + 15 : 15};
  l->desk = (struct slice){desk, fits ? n * record : 0};
  l->item = (struct slice){item, fits ? plan[4] * f : 0};
  l->ending = (struct slice){ending, 42};
  for (size_t i = 0; i < NODES; i++) l->book[i] = (struct slice){books[i], BOOK};
}

/* The buffer that a step changes, and its whole room. */
static struct slice *chosen(struct lent *l, size_t which, size_t *room) {
  static const size_t rooms[] = {sizeof plan, sizeof session, sizeof frame, sizeof reply, sizeof desk, sizeof item, sizeof ending};
  struct slice *all[] = {&l->plan, &l->session, &l->frame, &l->reply, &l->desk, &l->item, &l->ending};
  *room = which % 8 == 7 ? BOOK : rooms[which % 8];
  return which % 8 == 7 ? &l->book[which / 8 % NODES] : all[which % 8];
}

static void cut(struct slice *frame_, size_t room) {
  size_t length = number(frame_->bytes, 4) + 4;
  frame_->len = length < room ? length : room;
}

static uint32_t to_node(struct lent *l, size_t node) {
  size_t record = 40 + 32 * (size_t)plan[0] + number(plan + 5, 2), whole = record + 15 < sizeof reply ? record + 15 : sizeof reply;
  l->reply.len = whole;
  struct slice s[] = {l->plan, l->frame, l->book[node % NODES], l->reply};
  uint32_t answer = make(NODE, s, 0);
  if (answer == 0) cut(&l->reply, whole);
  return answer;
}

static uint32_t to_client(struct lent *l, unsigned which) {
  struct slice s[] = {l->plan, l->session, l->reply, l->desk, l->item, l->ending};
  return make(which, s, 0);
}

static uint32_t owed(struct lent *l, size_t node) {
  size_t record = 40 + 32 * (size_t)plan[0] + number(plan + 5, 2), whole = record + 15 < sizeof frame ? record + 15 : sizeof frame;
  l->frame.len = whole;
  struct slice s[] = {l->plan, l->session, l->desk, l->frame};
  uint32_t answer = make(OWED, s, node);
  if (answer == 0) cut(&l->frame, whole);
  return answer;
}

/* A client's request to a node, served, and its reply taken. */
static void exchange(struct lent *l, size_t node) {
  if (owed(l, node) == 0 && to_node(l, node) == 0) to_client(l, session[0] ? READ_REPLY : WRITE_REPLY);
}

/* One number of a wish: the next byte if it is small, or the 8 bytes after it. */
static void wish_number(uint8_t *at) {
  uint64_t n = take(1);
  if (n >= 240) n = take(8);
  for (unsigned i = 8; i > 0; n >>= 8) at[--i] = (uint8_t)n;
}

static void make_wish(size_t len) {
  struct slice s[] = {{wish, sizeof wish}, {counts, len}};
  memset(counts, 0xc3, sizeof counts);
  wish[0] = (uint8_t)take(1);
  for (unsigned i = 0; i < 3; i++) wish_number(wish + 1 + 8 * i);
  make(SMALLEST, s, 0);
}

/* Bytes put behind the run, as many as there is room for. */
static void append(const uint8_t *bytes, size_t len) {
  if (len > sizeof run - run_length) len = sizeof run - run_length;
  memcpy(run + run_length, bytes, len);
  run_length += len;
}

/* The run at a node's book, lent what it needs for its replies and numbers and these bytes more or fewer. */
static void serve_run(struct lent *l, size_t node, int replies_more, int numbers_more, int told_more) {
  struct slice whole = {run, run_length};
  size_t place, frames = frames_cut(&whole, &place), room = frames * (record_length() + 15);
  memset(replies, 0xc3, room + 1), memset(numbers, 0xc3, sizeof numbers), memset(told, 0xc3, sizeof told);
  if (room == 0 && replies_more < 0) replies_more = 0;
  if (frames == 0 && numbers_more < 0) numbers_more = 0;
  struct slice s[] = {l->plan,
                      whole,
                      l->book[node % NODES],
                      {replies, room + (size_t)replies_more},
                      {numbers, frames + (size_t)numbers_more},
                      {told, PASIS_TOLD_SIZE + (size_t)told_more}};
  make(RUN, s, 0);
}

static void run_step(struct lent *l, size_t what) {
  static uint8_t bytes[64];
  size_t node, how, len;
  switch (what) {
    case 0: append(frame, l->frame.len); break; /* the request, as it is */
    case 1:                                     /* some bytes of the input */
      len = take(1) % sizeof bytes;
      for (size_t i = 0; i < len; i++) bytes[i] = (uint8_t)take(1);
      append(bytes, len);
      break;
    case 2: serve_run(l, take(1), 0, 0, 0); break;
    case 3: /* one byte more or fewer of each: bits 0 and 1 replies, 2 and 3 numbers, 4 and 5 told */
      node = take(1), how = take(1);
      serve_run(l, node, (int)(how & 1) - (int)(how >> 1 & 1), (int)(how >> 2 & 1) - (int)(how >> 3 & 1), (int)(how >> 4 & 1) - (int)(how >> 5 & 1));
      break;
    case 4: run_length = 0; break;
    default: /* what the session owes to a node */
      if (owed(l, take(1)) == 0) append(frame, l->frame.len);
  }
}

static void fresh_books(struct lent *l) {
  for (size_t i = 0; i < NODES; i++) {
    struct slice s[] = {l->plan, l->book[i]};
    make(FRESH, s, i);
  }
}

static void change(struct lent *l, int length) {
  size_t room;
  struct slice *s = chosen(l, take(1), &room);
  size_t at = take(2);
  if (length) s->len = at % (room + 1);
  else if (s->len) s->bytes[at % s->len] ^= (uint8_t)take(1);
}

static void step(struct lent *l) {
  size_t what = take(1), k = what / 12;
  struct slice opening[] = {l->plan, l->session};
  switch (what % 12) {
    case 0: {
      struct slice s[] = {l->plan, l->book[k % NODES]};
      make(FRESH, s, take(1));
      break;
    }
    case 1: to_node(l, k); break;
    case 2: make(OPEN_WRITE, opening, k < 20 ? k : ~(uint64_t)take(1)); break;
    case 3: make(OPEN_READ, opening, k < 20 ? k : ~(uint64_t)take(1)); break;
    case 4: owed(l, k); break;
    case 5: to_client(l, WRITE_REPLY); break;
    case 6: to_client(l, READ_REPLY); break;
    case 7: change(l, 0); break;
    case 8: change(l, 1); break;
    case 9:
      if (k < 5 || k >= 15) fresh_books(l);
      else if (k >= 6 && k < 12) run_step(l, k - 6);
      else make_wish(k < 12 ? 2 : k == 14 ? 3 : k - 12); /* lent 2 bytes, or 0, 1, 3 */
      break;
    case 10: exchange(l, k); break;
    default:
      for (size_t i = k % 4; i < plan[0] && i < NODES; i++) exchange(l, i);
  }
}

int LLVMFuzzerTestOneInput(const uint8_t *data, size_t size) {
  struct lent lent;
  input.at = data;
  input.left = size;
  choose_plan(&lent.plan);
  prepare(&lent);
  for (made = 0; input.left && made < MOST;) step(&lent);
  return 0;
}
