/* pasis.h: the proved library as calls for C and C++. This header is the manual.
 *
 * One block of fixed size, kept as fragments on N storage-nodes by the protocol of CMU-PDL-03-105 as document 01, the scope paper, fixes
 * it. "The paper" below is document 01; words in quotation marks are its own.
 *
 * The library sends nothing, waits for nothing and keeps nothing: a call reads and writes the memory that it is lent and comes back. It
 * allocates nothing, has no global state, never calls back and always ends. It needs less than 8 KiB of stack (docs/HOSTS.md). Any
 * number of threads may make calls at once, if none touches memory that another's call may write.
 *
 * A slice is a pointer and the length that follows it. A pointer is never null, also where the length is 0, and no slice that a call may
 * write overlaps another slice of that call. All else may be anything: a call takes any bytes and any lengths, and answers a number.
 * A refused call (1 to 31) leaves every byte that it was lent as it came.
 *
 * Linking: libpasis.a and a C library (memset and its like), nothing else. What this header defines itself is inline.
 *
 *   the plan       pasis_smallest_plan once, by whoever lays the plan down, where its N and Q are to be found
 *   node side      pasis_fresh_book once, then pasis_node for each request, or pasis_run for several that wait
 *   client side    pasis_open_write or pasis_open_read; pasis_owed for each node, as often as wanted; pasis_write_reply or
 *                  pasis_read_reply for each reply, until it answers an ending (101 to 105)
 *
 * What the caller owes. The library cannot see these things, and what it promises rests on them.
 *
 *   1. Ask numbers. "The caller gives each operation an ask number range that it has not used." An operation opened at a uses a to a+W:
 *      W+1 numbers, not W. Keep a counter on disk and raise it BEFORE the operation starts; a number that was once handed out is never
 *      used again, also after a crash. Several clients: give each numbers of its own, as by its own number in the upper 16 bits, and
 *      no reply to one can be counted by another, whatever carries them.
 *   2. Channels. "Authentication of channels (assumed, as in the report)" is the caller's. A frame says from which node it is
 *      (pasis_frame_node): AFTER receiving it and BEFORE handing it on, compare that with the node at the channel's other end, and
 *      drop the frame where they differ. Else one liar answers for all nodes.
 *   3. One desk a session. Between two calls session and desk are touched by nobody else, and no second session uses that desk. Each
 *      call gets them as the call before handed them back.
 *   4. The book on disk BEFORE the reply is sent. When pasis_node answers 0, make the book durable, then send the reply; after a pasis_run
 *      the book once, then all its replies. A node that forgets what it acknowledged counts among the b that lie.
 *   5. One plan in all calls of all nodes and clients.
 *   6. Giving up. The library has no clock. "Sending" and "timers" are the caller's: ask unheard nodes again (pasis_owed) as often as
 *      wanted, and give up when it wants. A round may never end; docs/HOSTS.md says when and what then. */
#ifndef PASIS_H
#define PASIS_H

#include <stddef.h>
#include <stdint.h>

#ifdef __cplusplus
extern "C" {
#endif

/* ---- Version ----------------------------------------------------------------------------------------------------------------------
 * The number of this interface: layouts, calls and answers. The header's as a macro, the archive's as a call; a program that was
 * compiled with one and linked with the other should compare them once, at its start. */
#define PASIS_INTERFACE 4
uint32_t pasis_interface(void);

/* ---- Answers ----------------------------------------------------------------------------------------------------------------------
 * What every call answers. Where several refusals apply, the first in the call's own order is given; the order stands at each call. */
enum pasis_answer {
  PASIS_OK = 0, /* accepted and open; or served, or opened, or made */

  /* Refusals, in the paper's words; 20 and 21 in those of document 02, the change requests. "All leave every buffer and the session as
   * they came." 15 to 19 and 22 to 31 are kept for later interfaces. */
  PASIS_REFUSED_PLAN = 1,     /* plan outside its rules; not 11 bytes; a member or clients byte above 1; a wish with b above t or m 0 */
  PASIS_REFUSED_LENGTH = 2,   /* a lent length is wrong: book, reply or request buffer, desk, item, session, ending, counts, told */
  PASIS_REFUSED_BOOK = 3,     /* book not of this shape, or not of this plan (its N or F differs) */
  PASIS_REFUSED_FRAME = 4,    /* frame length (for its kind too), version, kind for this party, or node wrong; a node number of N or more */
  PASIS_REFUSED_TIME = 5,     /* time 0 in a record or a bound */
  PASIS_REFUSED_HASH = 6,     /* a hash check fails */
  PASIS_REFUSED_HELD = 7,     /* same timestamp held with other bytes */
  PASIS_REFUSED_ROOM = 8,     /* no room in the book for R more bytes */
  PASIS_REFUSED_SESSION = 9,  /* session out of its ranges, or of the other operation; also bytes that code no session */
  PASIS_REFUSED_AWAITED = 10, /* ask number, kind or write timestamp not the one awaited */
  PASIS_REFUSED_HEARD = 11,   /* this node is already heard */
  PASIS_REFUSED_BOUND = 12,   /* reply not strictly below the bound */
  PASIS_REFUSED_ASK = 13,     /* opening ask number plus W above 2^64-1 */
  PASIS_REFUSED_ENDED = 14,   /* session has ended */
  PASIS_REFUSED_WISH = 20,    /* no N and Q up to 16 are accepted for this wish */
  PASIS_REFUSED_RUN = 21,     /* under R+15 reply bytes or one number place for each frame of the run */

  /* Endings, of the two reply calls. The session has ended, and `ending` has been written. */
  PASIS_DONE = 101,          /* done: a write stands at N-t nodes; a read has its block in `item` */
  PASIS_NEVER_WRITTEN = 102, /* never written (a read): N-t nodes hold no record below the bound, or none at all */
  PASIS_ABORTED = 103,       /* aborted (a read, non-repair): the candidate set is unclassifiable */
  PASIS_ROUNDS_SPENT = 104,  /* rounds spent (a read): round W was incomplete or invalid */
  PASIS_CLOCK_SPENT = 105    /* clock spent (a write): the (b+1)-th greatest time reply is 2^64-1 */
};

static inline int pasis_is_refusal(uint32_t answer) { return answer >= 1 && answer <= 31; }
static inline int pasis_is_ending(uint32_t answer) { return answer >= 101 && answer <= 105; }

/* An answer in words; never null. The text is constant and is not to be freed. */
static inline const char *pasis_strerror(uint32_t answer) {
  switch (answer) {
    case PASIS_OK: return "accepted";
    case PASIS_REFUSED_PLAN: return "plan outside its rules";
    case PASIS_REFUSED_LENGTH: return "a lent length is wrong";
    case PASIS_REFUSED_BOOK: return "book not of this shape, or not of this plan";
    case PASIS_REFUSED_FRAME:
      return "frame length (for its kind too), version, kind for this party, or node wrong; a node number of N or more";
    case PASIS_REFUSED_TIME: return "time 0 in a record or a bound";
    case PASIS_REFUSED_HASH: return "a hash check fails";
    case PASIS_REFUSED_HELD: return "same timestamp held with other bytes";
    case PASIS_REFUSED_ROOM: return "no room in the book for R more bytes";
    case PASIS_REFUSED_SESSION: return "session out of its ranges, or of the other operation";
    case PASIS_REFUSED_AWAITED: return "ask number, kind or write timestamp not the one awaited";
    case PASIS_REFUSED_HEARD: return "this node is already heard";
    case PASIS_REFUSED_BOUND: return "reply not strictly below the bound";
    case PASIS_REFUSED_ASK: return "opening ask number plus W above 2^64-1";
    case PASIS_REFUSED_ENDED: return "session has ended";
    case PASIS_REFUSED_WISH: return "no N and Q up to 16 are accepted for this wish";
    case PASIS_REFUSED_RUN: return "under R+15 reply bytes or one number place for each frame of the run";
    case PASIS_DONE: return "done";
    case PASIS_NEVER_WRITTEN: return "never written";
    case PASIS_ABORTED: return "aborted";
    case PASIS_ROUNDS_SPENT: return "rounds spent";
    case PASIS_CLOCK_SPENT: return "clock spent";
    default: return "not an answer of this interface";
  }
}

/* ---- Sizes ------------------------------------------------------------------------------------------------------------------------
 * As macros of a plan's values, for arrays; as functions of a plan's 11 bytes below. All numbers in all layouts are big-endian. */
#define PASIS_PLAN_SIZE 11
#define PASIS_SESSION_SIZE 237
#define PASIS_ENDING_SIZE 42
#define PASIS_COUNTS_SIZE 2                                            /* N, then Q: what pasis_smallest_plan writes */
#define PASIS_TOLD_SIZE 24                                             /* three numbers of 8 bytes: what pasis_run tells */
#define PASIS_TIMESTAMP_SIZE 40                                        /* an 8 byte time, then the 32 byte hash of the cross checksum */
#define PASIS_NODES_MOST 16                                            /* N is 1 to 16 */
#define PASIS_BOOK_LEAST 11                                            /* "lent book: 11 to 65,536 bytes" */
#define PASIS_BOOK_MOST 65536
#define PASIS_RECORD_SIZE(N, F) (40 + 32 * (size_t)(N) + (size_t)(F))  /* R: timestamp 40, cross checksum 32*N, fragment F */
#define PASIS_DESK_SIZE(N, F) ((size_t)(N) * PASIS_RECORD_SIZE(N, F))  /* exactly */
#define PASIS_ITEM_SIZE(m, F) ((size_t)(m) * (size_t)(F))              /* exactly */
#define PASIS_FRAME_SIZE(N, F) (PASIS_RECORD_SIZE(N, F) + 15)          /* at least: request and reply buffers */
#define PASIS_REPLIES_SIZE(N, F, frames) ((size_t)(frames) * PASIS_FRAME_SIZE(N, F)) /* at least: the replies of a run of so many frames */
#define PASIS_BOOK_SIZE(N, F, records) (11 + (size_t)(records) * PASIS_RECORD_SIZE(N, F)) /* a book with room for so many records */

/* The archive's own word for the first three. */
size_t pasis_plan_size(void);
size_t pasis_session_size(void);
size_t pasis_ending_size(void);

/* ---- The plan ---------------------------------------------------------------------------------------------------------------------
 * "N 1 to 16; b and t from 0 with b <= t; Q; m; fragment length F 1 to 1,024; member repairable or non-repair; clients crash or
 * Byzantine; round limit W 1 to 65,535. Besides these ranges:"
 *
 *         repairable                 non-repair
 *   Q     t+b+1 <= Q <= N-t-b        t+b+1 <= Q <= N-2t-2b
 *   m     1 <= m <= Q-t              1 <= m <= Q+b
 *
 * t nodes may be silent or worse, b of those may lie. A block is m*F bytes and comes back from any m fragments. A round ends at N-t
 * replies. A candidate set of Q+b or more is complete, one below Q-t is incomplete, any other is unclassifiable.
 * Its bytes: N, t, b, Q, m, F (2), member, clients, W (2). Every call that is lent them checks them; pasis_open_read at ask
 * number 0 is a check alone. */
enum { PASIS_REPAIRABLE = 0, PASIS_NON_REPAIR = 1 }; /* member */
enum { PASIS_CRASH = 0, PASIS_BYZANTINE = 1 };       /* clients */

struct pasis_plan {
  uint8_t N, t, b, Q, m;
  uint16_t F;
  uint8_t member, clients;
  uint16_t W;
};

/* Writes a plan's 11 bytes. */
static inline void pasis_plan_bytes(const struct pasis_plan *p, uint8_t plan[PASIS_PLAN_SIZE]) {
  plan[0] = p->N;
  plan[1] = p->t;
  plan[2] = p->b;
  plan[3] = p->Q;
  plan[4] = p->m;
  plan[5] = (uint8_t)(p->F >> 8);
  plan[6] = (uint8_t)p->F;
  plan[7] = p->member;
  plan[8] = p->clients;
  plan[9] = (uint8_t)(p->W >> 8);
  plan[10] = (uint8_t)p->W;
}

/* Sizes of a plan's 11 bytes; the same numbers as the macros give. */
static inline size_t pasis_fragment_size(const uint8_t plan[PASIS_PLAN_SIZE]) { return (size_t)plan[5] << 8 | plan[6]; }
static inline size_t pasis_record_size(const uint8_t plan[PASIS_PLAN_SIZE]) {
  return PASIS_RECORD_SIZE(plan[0], pasis_fragment_size(plan));
}
static inline size_t pasis_desk_size(const uint8_t plan[PASIS_PLAN_SIZE]) { return plan[0] * pasis_record_size(plan); }
static inline size_t pasis_item_size(const uint8_t plan[PASIS_PLAN_SIZE]) { return plan[4] * pasis_fragment_size(plan); }
static inline size_t pasis_frame_size(const uint8_t plan[PASIS_PLAN_SIZE]) { return pasis_record_size(plan) + 15; }
static inline size_t pasis_replies_size(const uint8_t plan[PASIS_PLAN_SIZE], size_t frames) { return frames * pasis_frame_size(plan); }
static inline size_t pasis_book_size(const uint8_t plan[PASIS_PLAN_SIZE], size_t records) { return 11 + records * pasis_record_size(plan); }

/* pasis_smallest_plan finds the N and Q of a plan, for who knows the other values that bear on them: a wish.
 *   member   PASIS_REPAIRABLE or PASIS_NON_REPAIR
 *   t, b, m  as in the plan; any number may be asked
 *   counts   2 bytes (PASIS_COUNTS_SIZE), written: N at counts[0], Q at counts[1]
 *   answers 0; or refuses 1, b above t, m 0, or a member byte above 1; 2, counts is not 2 bytes; 20, no N and Q up to 16 are accepted
 *   for this wish; in that order
 * N is the smallest with which the rules above accept some Q, and Q the smallest that they accept with that N. F, clients and W have no
 * part in this and are free in their ranges. More nodes may be had than N: then Q may stay, or rise to the most that the rules allow. */
uint32_t pasis_smallest_plan(uint8_t member, uint64_t t, uint64_t b, uint64_t m, uint8_t *counts, size_t counts_len);

/* ---- Frames -----------------------------------------------------------------------------------------------------------------------
 * 4 byte length of the rest, version 1, kind, node, 8 byte ask number, body. A call that is lent a frame is lent exactly that frame: cut
 * it out of the stream by its length field first. pasis_run is lent several, laid end to end, and cuts them itself. A call that writes a
 * frame writes its bytes and no more; "bytes past it stay".
 *
 *   kind              body                      kind               body
 *   1 time request    none                      2 time reply       greatest time, 8
 *   3 write request   record                    4 write reply      timestamp
 *   5 read latest     none                      7 read reply       record, or none for the first triple
 *   6 read previous   timestamp, the bound */
#define PASIS_FRAME_HEAD 15 /* a frame's bytes before its body */

static inline uint64_t pasis_number(const uint8_t *at, size_t bytes) {
  uint64_t number = 0;
  for (size_t i = 0; i < bytes; i++) number = number << 8 | at[i];
  return number;
}

/* The whole length of a frame, from its first 4 bytes: what to send of a buffer that a call has written, or how much to read of a
 * stream. Of a stranger's frame it may be anything up to 2^32+3: refuse what is above pasis_frame_size before reading on. */
static inline uint64_t pasis_frame_length(const uint8_t *frame) { return pasis_number(frame, 4) + 4; }

/* The node that a frame of at least 7 bytes names: to be compared with the channel's, see 2 above. */
static inline unsigned pasis_frame_node(const uint8_t *frame) { return frame[6]; }

/* ---- The node ---------------------------------------------------------------------------------------------------------------------
 *
 * pasis_fresh_book makes the empty book of a node, by writing the first 11 bytes of `book`; all other bytes stay.
 *   plan   11 bytes, read
 *   node   its number, 0 to N-1
 *   book   11 to 65,536 bytes, written. Its length is its room: PASIS_BOOK_SIZE. It may be lent longer later, by bytes put behind it
 *   answers 0, or refuses 1, 2, 4 in that order
 * Never make a fresh book in the place of a lost one and call the node good: a node that forgot counts among the b that lie. */
uint32_t pasis_fresh_book(const uint8_t *plan, size_t plan_len, uint64_t node, uint8_t *book, size_t book_len);

/* pasis_node serves one request frame against one book.
 *   plan      11 bytes, read
 *   request   one whole frame of kind 1, 3, 5 or 6, read
 *   book      this node's book, 11 to 65,536 bytes, read; written by a kind 3 that stores a record
 *   reply     at least R+15 bytes (pasis_frame_size), written: the reply frame, whose length is pasis_frame_length(reply)
 *   answers 0, served; or refuses 1, 2, 3, 4, 5, 6, 7, 8 in that order. A refused request gets no reply frame: send nothing
 * After 0: make the book durable if its bytes changed, and only then send the reply. A record that is held already is acknowledged
 * again, also by a full book, so a request may be delivered any number of times. "Shape is checked at each call, hashes of held
 * records are not": a damaged record goes out as it is, and the client refuses it. */
uint32_t pasis_node(const uint8_t *plan, size_t plan_len, const uint8_t *request, size_t request_len, uint8_t *book, size_t book_len,
                    uint8_t *reply, size_t reply_len);

/* pasis_run serves a run of request frames, laid end to end, against one book: "a whole evening's frames in one call" (document 02, Q-3).
 *   plan      11 bytes, read
 *   run       any bytes, also none, read: the frames, one behind another
 *   book      this node's book, 11 to 65,536 bytes, read; written where a kind 3 stores a record
 *   replies   at least R+15 bytes for each frame cut (pasis_replies_size), written: the reply frames end to end
 *   numbers   at least one byte for each frame cut, written: 0 accepted, or the frame's own refusal, 4 to 8
 *   told      24 bytes (PASIS_TOLD_SIZE), written: frames cut (8), bytes of replies written (8), place where the run ended (8)
 *   answers 0, served; or refuses 1; 2, book or told; 21, replies or numbers; 3; in that order. A refused run changes no byte of book,
 *   replies, numbers and told
 * "The outcome is as if they came singly in that order": the book, the replies and the numbers are those of pasis_node called with each
 * frame in turn, but that the book's shape is checked once. "A refused frame adds no reply and the run goes on": the replies are fewer than
 * the frames then, and the numbers say whose they are. Bytes past what is written stay, in replies and in numbers.
 *
 * Where it is cut. The run "ends early where fewer than 4 bytes remain, or a length is below 11 or larger than the rest", which is what
 * comes after the 4 length bytes; the place is where that began, and the run's length where nothing is left. A frame that is cut and is too
 * long or too short for its kind is 4, and the run goes on. Bytes from the place on are a frame that has not come whole yet, to be lent
 * again in front of what comes next, or no frame at all: where 4 or more are left, pasis_frame_length below 15 or above pasis_frame_size
 * is no good frame's. Frames that are not cut need no room: with none, replies and numbers may have length 0. A run has at most a
 * fifteenth as many frames as bytes.
 *
 * After 0 there is one fsync for the whole run: make the book durable if its bytes changed, then send the replies. Until then send none of
 * them, also not those to frames that stored nothing: a read in the run may tell of a record that the run stored. */
uint32_t pasis_run(const uint8_t *plan, size_t plan_len, const uint8_t *run, size_t run_len, uint8_t *book, size_t book_len,
                   uint8_t *replies, size_t replies_len, uint8_t *numbers, size_t numbers_len, uint8_t *told, size_t told_len);

/* What a run tells: the frames cut, which is how many numbers there are; the bytes of replies written; the place where it ended. */
static inline uint64_t pasis_told_frames(const uint8_t told[PASIS_TOLD_SIZE]) { return pasis_number(told, 8); }
static inline uint64_t pasis_told_replies(const uint8_t told[PASIS_TOLD_SIZE]) { return pasis_number(told + 8, 8); }
static inline uint64_t pasis_told_place(const uint8_t told[PASIS_TOLD_SIZE]) { return pasis_number(told + 16, 8); }

/* ---- The client -------------------------------------------------------------------------------------------------------------------
 * A session is 237 bytes that the caller keeps between calls: operation (0 write, 1 read), stage (0 asking, 1 storing, 2 ended), round 2,
 * bound 41 (0 and forty zeros: none; 1 and the timestamp), opening ask number 8 (at 45), the times that the nodes told, 8 for each of 16
 * by node number (at 53), timestamp being written 40 (at 181), 16 marks (at 221: 0 unheard, 1 first triple, 2 record). It holds no pointer
 * and may be stored; it must not be copied and gone on with twice. A session of 117 bytes, which interface 2 had, is refused 2: let its
 * operation go and open a new one.
 *
 * A desk is N*R bytes, node i in slot i. It belongs to one session, from opening to ending; what it holds at the opening is of no account.
 *
 * pasis_open_write and pasis_open_read open an operation.
 *   plan      11 bytes, read
 *   ask       the first of W+1 ask numbers that this client has never used, at most 2^64-1-W
 *   session   237 bytes, written
 *   answers 0, or refuses 1, 2, 13 in that order */
uint32_t pasis_open_write(const uint8_t *plan, size_t plan_len, uint64_t ask, uint8_t *session, size_t session_len);
uint32_t pasis_open_read(const uint8_t *plan, size_t plan_len, uint64_t ask, uint8_t *session, size_t session_len);

/* pasis_owed writes the request frame that the open round owes to a node that is not heard yet, "as often as wanted".
 *   plan      11 bytes, read
 *   session   237 bytes, read
 *   node      to whom, 0 to N-1
 *   desk      N*R bytes (pasis_desk_size), read
 *   request   at least R+15 bytes (pasis_frame_size), written: the frame, whose length is pasis_frame_length(request)
 *   answers 0, or refuses 1, 2, 9, 14, 4, 11 in that order
 * When a round opens, that is after the opening, and after a reply that answered 0 and changed stage or round (bytes 1 to 3 of the
 * session), get the requests for all N nodes and send them all: a round ends at N-t replies, but each further node that stores is one
 * more. */
uint32_t pasis_owed(const uint8_t *plan, size_t plan_len, const uint8_t *session, size_t session_len, uint64_t node, const uint8_t *desk,
                    size_t desk_len, uint8_t *request, size_t request_len);

/* pasis_write_reply takes a reply to a write. A write is a time round and a write round; the reply that ends the time round fills the
 * desk with the N records of `item`, and the requests owed from then on carry them. Their time is the (b+1)-th greatest of the N-t time
 * replies, "equal values counted each", plus 1 (document 02, Q-2): replies 2^64-1, 9, 9, 4 with b 1 give 10. With at most b lying nodes it
 * is at most one above what some honest node said, and above every write that was complete before; a write that was cut off may lie
 * above it.
 *   plan      11 bytes, read
 *   session   237 bytes, read and written
 *   reply     one whole frame of kind 2 or 4, read
 *   desk      N*R bytes, read and written
 *   item      the block, m*F bytes (pasis_item_size), read; the same bytes with every reply
 *   ending    42 bytes, written at an ending only: timestamp 40 (zero where the ending has none), rounds 2 (zero for a write)
 *   answers 0, open: go on; 101 done, 105 clock spent; or refuses 1, 2, 9, 14, 4, 10, 11 in that order
 * 10, 11 and 14 are what late and repeated replies get, and are no fault of anybody. */
uint32_t pasis_write_reply(const uint8_t *plan, size_t plan_len, uint8_t *session, size_t session_len, const uint8_t *reply,
                           size_t reply_len, uint8_t *desk, size_t desk_len, const uint8_t *item, size_t item_len, uint8_t *ending,
                           size_t ending_len);

/* pasis_read_reply takes a reply to a read. A read is one to W read rounds and, where the candidate is repaired, a write round.
 *   plan      11 bytes, read
 *   session   237 bytes, read and written
 *   reply     one whole frame of kind 7, or 4 in a repair, read
 *   desk      N*R bytes, read and written
 *   item      m*F bytes (pasis_item_size), written by 101 done and by nothing else
 *   ending    42 bytes, written at an ending only: timestamp 40 (zero where the ending has none), rounds 2, 1 to W
 *   answers 0, open: go on; 101 done, 102 never written, 103 aborted, 104 rounds spent;
 *   or refuses 1, 2, 9, 14, 4, 10, 11, 5, 6, 12 in that order
 * 5, 6 and 12 come of a damaged or lying node; the session still awaits that node, and a good reply of it would be taken. */
uint32_t pasis_read_reply(const uint8_t *plan, size_t plan_len, uint8_t *session, size_t session_len, const uint8_t *reply,
                          size_t reply_len, uint8_t *desk, size_t desk_len, uint8_t *item, size_t item_len, uint8_t *ending,
                          size_t ending_len);

/* What an ending says: the time of its timestamp (the first 8 bytes; 0 where it has none) and the rounds that a read used. */
static inline uint64_t pasis_ending_time(const uint8_t ending[PASIS_ENDING_SIZE]) { return pasis_number(ending, 8); }
static inline unsigned pasis_ending_rounds(const uint8_t ending[PASIS_ENDING_SIZE]) { return (unsigned)pasis_number(ending + 40, 2); }

#ifdef __cplusplus
}
#endif
#endif
