// calls LIMIT: the calls of pasis.h, each on a painted stack of its own (painted.h). A client saves, is cut off, opens and repairs over N
// books, and a node takes a run of frames, so that each call is met on its deepest way. Prints the most that each call used, by what it answered, and ends with 1 where one
// went below LIMIT bytes or did not answer as it should. The line "nothing" is a call that does nothing.
#include "painted.h"

#include "../pasis.h"

// t nodes are silent throughout: 0 to 2, so that fragments 0 to 2 of the block have to be computed from the others.
enum { N = 16, T = 3, M = 8, F = 1024, W = 3, ITEM = M * F, RECORDS = 4, FRAMES = 6, ANSWERS = 128 };

static const struct pasis_plan values = {N, T, 1, 12, M, F, PASIS_REPAIRABLE, PASIS_BYZANTINE, W};
static uint8_t plan[PASIS_PLAN_SIZE], session[PASIS_SESSION_SIZE], ending[PASIS_ENDING_SIZE], item[ITEM], back[ITEM];
static uint8_t books[N][PASIS_BOOK_SIZE(N, F, RECORDS)], desk[PASIS_DESK_SIZE(N, F)], request[PASIS_FRAME_SIZE(N, F)], reply[PASIS_FRAME_SIZE(N, F)];
static uint8_t counts[PASIS_COUNTS_SIZE];
static uint8_t run[PASIS_REPLIES_SIZE(N, F, FRAMES)], replies[PASIS_REPLIES_SIZE(N, F, FRAMES)], numbers[FRAMES], told[PASIS_TOLD_SIZE];
static uint8_t copy[PASIS_BOOK_SIZE(N, F, RECORDS)];
static size_t run_len;
static uint64_t ask = 1, lost = T;
static unsigned node;
static uint32_t said;

// The calls, each a function of nothing so that one thread can make any.
static void nothing(void) { said = pasis_interface(); }
static void smallest_plan(void) { said = pasis_smallest_plan(PASIS_REPAIRABLE, lost, 1, M, counts, sizeof counts); }
static void fresh_book(void) { said = pasis_fresh_book(plan, sizeof plan, node, books[node], sizeof books[node]); }
static void serve(void) {
  said = pasis_node(plan, sizeof plan, request, (size_t)pasis_frame_length(request), books[node], sizeof books[node], reply, sizeof reply);
}
static void serve_run(void) {
  said = pasis_run(plan, sizeof plan, run, run_len, copy, sizeof copy, replies, sizeof replies, numbers, sizeof numbers, told, sizeof told);
}
static void open_write(void) { said = pasis_open_write(plan, sizeof plan, ask, session, sizeof session); }
static void open_read(void) { said = pasis_open_read(plan, sizeof plan, ask, session, sizeof session); }
static void owed(void) { said = pasis_owed(plan, sizeof plan, session, sizeof session, node, desk, sizeof desk, request, sizeof request); }
static void write_reply(void) {
  said = pasis_write_reply(plan, sizeof plan, session, sizeof session, reply, (size_t)pasis_frame_length(reply), desk, sizeof desk, item,
                           ITEM, ending, sizeof ending);
}
static void read_reply(void) {
  said = pasis_read_reply(plan, sizeof plan, session, sizeof session, reply, (size_t)pasis_frame_length(reply), desk, sizeof desk, back,
                          ITEM, ending, sizeof ending);
}

enum { NOTHING, SMALLEST_PLAN, FRESH_BOOK, NODE, RUN, OPEN_WRITE, OPEN_READ, OWED, WRITE_REPLY, READ_REPLY, CALLS };
static const struct {
  const char *name;
  void (*make)(void);
} calls[CALLS] = {{"nothing", nothing},         {"pasis_smallest_plan", smallest_plan}, {"pasis_fresh_book", fresh_book},
                  {"pasis_node", serve},        {"pasis_run", serve_run},               {"pasis_open_write", open_write},
                  {"pasis_open_read", open_read}, {"pasis_owed", owed},                 {"pasis_write_reply", write_reply},
                  {"pasis_read_reply", read_reply}};
static long most[CALLS][ANSWERS];

static uint32_t call(int which) {
  long bytes = used(calls[which].name, calls[which].make);
  if (said >= ANSWERS) fail(calls[which].name, "no answer of this interface");
  if (bytes > most[which][said]) most[which][said] = bytes;
  return said;
}

static void must(int which, uint32_t answer) {
  if (call(which) != answer) fail(calls[which].name, pasis_strerror(said));
}

// The open round, at the nodes from T on, each request delivered twice; a write round stores at the first `store` of them. The last answer.
static uint32_t round_of(int which, unsigned store) {
  uint32_t answer = PASIS_OK;
  for (node = T; node < N; node++) {
    must(OWED, PASIS_OK);
    if (request[5] == 3 && node >= T + store) break;
    must(NODE, PASIS_OK);
    must(NODE, PASIS_OK);
    answer = call(which);
    if (pasis_is_refusal(answer)) fail(calls[which].name, pasis_strerror(answer));
  }
  return answer;
}

// A save of the next block; cut off where `store` is below N, and then `request` and `node` are the first that was not delivered.
static void save(unsigned store) {
  item[0]++;
  ask += W + 1;
  must(OPEN_WRITE, PASIS_OK);
  if (round_of(WRITE_REPLY, store) != PASIS_OK) fail("save", "its time round did not end as it should");
  if (round_of(WRITE_REPLY, store) != (store == N ? PASIS_DONE : PASIS_OK)) fail("save", "its write round did not end as it should");
}

// An open of so many rounds, a repair among them; `block` is what it should give.
static void opened(unsigned rounds, const uint8_t *block) {
  memset(back, 0, ITEM);
  ask += W + 1;
  must(OPEN_READ, PASIS_OK);
  while (--rounds)
    if (round_of(READ_REPLY, N) != PASIS_OK) fail("open", "a round did not end as it should");
  if (round_of(READ_REPLY, N) != PASIS_DONE || memcmp(back, block, ITEM)) fail("open", "not done with the block that was saved");
}

// A wish that 15 nodes serve, and one that no plan does.
static void wishes(void) {
  must(SMALLEST_PLAN, PASIS_OK);
  if (counts[0] != 15 || counts[1] != 11) fail("pasis_smallest_plan", "not N 15 and Q 11");
  lost = UINT64_MAX;
  must(SMALLEST_PLAN, PASIS_REFUSED_WISH);
}

// A frame of this kind for the node, with so many bytes of `body`, put behind the run.
static void put_frame(int kind, const uint8_t *body, size_t length) {
  uint8_t *at = run + run_len;
  memset(at, 0, PASIS_FRAME_HEAD);
  at[2] = (uint8_t)((11 + length) >> 8);
  at[3] = (uint8_t)(11 + length);
  at[4] = 1;
  at[5] = (uint8_t)kind;
  at[6] = (uint8_t)node;
  memcpy(at + PASIS_FRAME_HEAD, body, length);
  run_len += PASIS_FRAME_HEAD + length;
}

// The request, whose record goes below another, in a run on a copy of the book: twice, then every kind of read, and a frame that is refused.
static void evening(void) {
  const uint8_t *record = request + PASIS_FRAME_HEAD;
  memcpy(copy, books[node], sizeof copy);
  for (int twice = 0; twice < 2; twice++) put_frame(3, record, PASIS_RECORD_SIZE(N, F));
  put_frame(1, record, 0);
  put_frame(5, record, 0);
  put_frame(6, record, PASIS_TIMESTAMP_SIZE);
  put_frame(5, record, 1);
  must(RUN, PASIS_OK);
  if (pasis_told_frames(told) != FRAMES || pasis_told_place(told) != run_len) fail("pasis_run", "not cut as it should be");
  for (int i = 0; i < FRAMES; i++)
    if (numbers[i] != (i < FRAMES - 1 ? PASIS_OK : PASIS_REFUSED_FRAME)) fail("pasis_run", "a frame was answered otherwise");
}

static void story(void) {
  uint8_t late[sizeof request], repaired[ITEM];
  for (node = 0; node < N; node++) must(FRESH_BOOK, PASIS_OK);
  save(N);
  opened(1, item); // complete, validated, decoded
  save(10);
  opened(2, item); // unclassifiable, validated, the desk filled; a repair
  memcpy(repaired, item, ITEM);
  save(1);
  memcpy(late, request, sizeof late);
  opened(2, repaired); // incomplete, then read previous
  save(N);
  memcpy(request, late, sizeof late);
  node = pasis_frame_node(request);
  evening();
  must(NODE, PASIS_OK); // a record put below another
  if (memcmp(copy, books[node], sizeof copy)) fail("pasis_run", "another book than singly");
}

int main(int argc, char **argv) {
  long limit, deepest = 0;
  if (argc != 2 || (limit = atol(argv[1])) <= 0) fail("usage", "calls LIMIT");
  pasis_plan_bytes(&values, plan);
  for (size_t i = 0; i < ITEM; i++) item[i] = (uint8_t)(i * 31 + (i >> 8));
  used("nothing", nothing); // the first thread of a process also does what the C library does once
  must(NOTHING, PASIS_INTERFACE);
  wishes();
  story();
  for (int which = 0; which < CALLS; which++)
    for (int answer = 0; answer < ANSWERS; answer++) {
      if (most[which][answer]) printf("%6ld  %s: %s\n", most[which][answer], calls[which].name, which ? pasis_strerror((uint32_t)answer) : "");
      if (most[which][answer] > deepest) deepest = most[which][answer];
    }
  printf("%6ld  deepest, of %ld\n", deepest, limit);
  return deepest > limit;
}
