// pasis.h from C++: its macros against its functions, and both against the archive. Ends with 0 if all agree, else with 1 and a line.
#include <cstdio>
#include <cstring>
#include <vector>

#include "pasis.h"

#define MUST(what)                                                     \
  do {                                                                 \
    if (!(what)) {                                                     \
      std::fprintf(stderr, "header: line %d: %s\n", __LINE__, #what); \
      return 1;                                                        \
    }                                                                  \
  } while (0)

static_assert(PASIS_RECORD_SIZE(5, 4) == 204, "document 01: N5 F4, R 204");
static_assert(PASIS_BOOK_SIZE(5, 4, 2) == 419, "document 01: N5 F4, two records, 419 bytes");
static_assert((PASIS_BOOK_MOST - 11) / PASIS_RECORD_SIZE(16, 1024) == 41, "document 01: N16 F1024, 41 records");

// The sizes that the header gives are those that the library takes, and no others.
static int sizes(const uint8_t *plan) {
  std::vector<uint8_t> session(PASIS_SESSION_SIZE), desk(pasis_desk_size(plan)), frame(pasis_frame_size(plan));
  std::vector<uint8_t> item(pasis_item_size(plan)), ending(PASIS_ENDING_SIZE), reply(1);
  MUST(pasis_open_read(plan, 11, 7, session.data(), session.size() - 1) == PASIS_REFUSED_LENGTH);
  MUST(pasis_open_read(plan, 11, 7, session.data(), session.size()) == PASIS_OK);
  MUST(pasis_owed(plan, 11, session.data(), session.size(), 0, desk.data(), desk.size() - 1, frame.data(), frame.size()) == PASIS_REFUSED_LENGTH);
  MUST(pasis_owed(plan, 11, session.data(), session.size(), 0, desk.data(), desk.size(), frame.data(), frame.size() - 1) == PASIS_REFUSED_LENGTH);
  MUST(pasis_owed(plan, 11, session.data(), session.size(), 0, desk.data(), desk.size(), frame.data(), frame.size()) == PASIS_OK);
  MUST(pasis_frame_length(frame.data()) == PASIS_FRAME_HEAD && pasis_frame_node(frame.data()) == 0);
  MUST(pasis_number(frame.data() + 7, 8) == 7);
  for (size_t wrong = 0; wrong < 3; wrong++) {
    uint32_t answer = pasis_read_reply(plan, 11, session.data(), session.size(), reply.data(), 1, desk.data(), desk.size(), item.data(),
                                       item.size() - (wrong == 1), ending.data(), ending.size() - (wrong == 2));
    MUST(answer == (wrong ? PASIS_REFUSED_LENGTH : PASIS_REFUSED_FRAME));
  }
  return 0;
}

// The counts of a wish, and its refusals in their order: 1, 2, 20. A refused call leaves the bytes.
static int wishes() {
  uint8_t counts[3] = {7, 7, 7};
  MUST(pasis_smallest_plan(2, 1, 1, 2, counts, 2) == PASIS_REFUSED_PLAN);
  MUST(pasis_smallest_plan(PASIS_REPAIRABLE, 8, 9, 2, counts, 3) == PASIS_REFUSED_PLAN);
  MUST(pasis_smallest_plan(PASIS_REPAIRABLE, 8, 0, 0, counts, 3) == PASIS_REFUSED_PLAN);
  MUST(pasis_smallest_plan(PASIS_REPAIRABLE, 8, 0, 1, counts, 3) == PASIS_REFUSED_LENGTH);
  MUST(pasis_smallest_plan(PASIS_REPAIRABLE, 1, 1, 2, counts, 1) == PASIS_REFUSED_LENGTH);
  MUST(pasis_smallest_plan(PASIS_REPAIRABLE, 8, 0, 1, counts, 2) == PASIS_REFUSED_WISH);
  MUST(pasis_smallest_plan(PASIS_NON_REPAIR, UINT64_MAX, UINT64_MAX, UINT64_MAX, counts, 2) == PASIS_REFUSED_WISH);
  MUST(counts[0] == 7 && counts[1] == 7 && counts[2] == 7);
  MUST(pasis_smallest_plan(PASIS_REPAIRABLE, 1, 1, 2, counts, sizeof counts - 1) == PASIS_OK);
  MUST(counts[0] == 5 && counts[1] == 3 && counts[2] == 7);
  MUST(pasis_smallest_plan(PASIS_NON_REPAIR, 1, 1, 4, counts, PASIS_COUNTS_SIZE) == PASIS_OK);
  MUST(counts[0] == 7 && counts[1] == 3 && counts[2] == 7);
  return 0;
}

// A run of a time request and a write that is no record's length, at a fresh book; and its refusals in their order: 1, 2, 21, 3. A refused
// call leaves the bytes.
static int runs(const uint8_t *plan) {
  const uint8_t frames[] = {0, 0, 0, 11, 1, 1, 2, 0, 0, 0, 0, 0, 0, 0, 7, 0, 0, 0, 12, 1, 3, 2, 0, 0, 0, 0, 0, 0, 0, 8, 0, 0, 0};
  std::vector<uint8_t> book(pasis_book_size(plan, 1)), replies(pasis_replies_size(plan, 2)), numbers(3, 9), told(PASIS_TOLD_SIZE + 1, 9);
  const std::vector<uint8_t> blank = replies;
  const size_t all = replies.size();
  const auto run = [&](size_t plan_len, size_t replies_len, size_t numbers_len, size_t told_len) {
    return pasis_run(plan, plan_len, frames, sizeof frames, book.data(), book.size(), replies.data(), replies_len, numbers.data(), numbers_len,
                     told.data(), told_len);
  };
  MUST(run(10, all - 1, 1, 25) == PASIS_REFUSED_PLAN);
  MUST(run(11, all - 1, 1, 25) == PASIS_REFUSED_LENGTH && run(11, all, 2, 23) == PASIS_REFUSED_LENGTH);
  MUST(run(11, all - 1, 2, PASIS_TOLD_SIZE) == PASIS_REFUSED_RUN && run(11, all, 1, PASIS_TOLD_SIZE) == PASIS_REFUSED_RUN);
  MUST(run(11, all, 2, PASIS_TOLD_SIZE) == PASIS_REFUSED_BOOK);
  MUST(replies == blank && numbers == std::vector<uint8_t>(3, 9) && told == std::vector<uint8_t>(25, 9));
  MUST(pasis_fresh_book(plan, 11, 2, book.data(), book.size()) == PASIS_OK);
  MUST(run(11, all, numbers.size(), PASIS_TOLD_SIZE) == PASIS_OK);
  MUST(pasis_told_frames(told.data()) == 2 && pasis_told_replies(told.data()) == 23 && pasis_told_place(told.data()) == 31);
  MUST(told[PASIS_TOLD_SIZE] == 9 && numbers[0] == 0 && numbers[1] == PASIS_REFUSED_FRAME && numbers[2] == 9);
  MUST(pasis_frame_length(replies.data()) == 23 && replies[5] == 2 && pasis_frame_node(replies.data()) == 2);
  MUST(pasis_number(replies.data() + 7, 8) == 7 && pasis_number(replies.data() + 15, 8) == 0);
  MUST(std::memcmp(replies.data() + 23, blank.data() + 23, all - 23) == 0);
  return 0;
}

// Every answer has words of its own.
static int words() {
  std::vector<uint32_t> answers = {0, PASIS_REFUSED_WISH, PASIS_REFUSED_RUN, 101, 102, 103, 104, 105};
  for (uint32_t refusal = 1; refusal <= 14; refusal++) answers.push_back(refusal);
  for (uint32_t a : answers) {
    MUST(std::strcmp(pasis_strerror(a), pasis_strerror(77)) != 0);
    MUST(pasis_is_refusal(a) + pasis_is_ending(a) + (a == PASIS_OK) == 1);
    for (uint32_t b : answers) MUST(a == b || std::strcmp(pasis_strerror(a), pasis_strerror(b)) != 0);
  }
  return 0;
}

int main() {
  MUST(pasis_interface() == PASIS_INTERFACE && pasis_session_size() == PASIS_SESSION_SIZE);
  MUST(pasis_plan_size() == PASIS_PLAN_SIZE && pasis_ending_size() == PASIS_ENDING_SIZE);
  const pasis_plan values[] = {{5, 1, 1, 3, 2, 4, PASIS_REPAIRABLE, PASIS_CRASH, 16},
                               {7, 1, 1, 3, 4, 300, PASIS_NON_REPAIR, PASIS_BYZANTINE, 1000},
                               {16, 3, 1, 12, 8, 1024, PASIS_REPAIRABLE, PASIS_BYZANTINE, 65535}};
  for (const pasis_plan &p : values) {
    uint8_t plan[PASIS_PLAN_SIZE];
    pasis_plan_bytes(&p, plan);
    MUST(pasis_record_size(plan) == PASIS_RECORD_SIZE(p.N, p.F) && pasis_desk_size(plan) == PASIS_DESK_SIZE(p.N, p.F));
    MUST(pasis_item_size(plan) == PASIS_ITEM_SIZE(p.m, p.F) && pasis_frame_size(plan) == PASIS_FRAME_SIZE(p.N, p.F));
    MUST(pasis_book_size(plan, 3) == PASIS_BOOK_SIZE(p.N, p.F, 3) && pasis_fragment_size(plan) == p.F);
    MUST(pasis_replies_size(plan, 3) == PASIS_REPLIES_SIZE(p.N, p.F, 3));
    if (sizes(plan) || runs(plan)) return 1;
  }
  MUST(PASIS_REFUSED_WISH == 20 && !std::strcmp(pasis_strerror(20), "no N and Q up to 16 are accepted for this wish"));
  MUST(PASIS_REFUSED_RUN == 21 && !std::strcmp(pasis_strerror(21), "under R+15 reply bytes or one number place for each frame of the run"));
  return wishes() || words();
}
