// keeper HOW FOLDER WORD..: 300 write requests to the program keeper, over pipes and a book on the disk, printed as requests a second by the clock.
//   HOW     waiting: all of them lie in keeper's standard input at once; then their replies are read
//           singly: each is sent when the reply to the one before has come
//   FOLDER  there, and empty; on the file system that is to be timed. PLAN and BOOK are made in it
//   WORD    the words that run keeper (host/keeper-command)
// The plan is N5 t1 b1 Q3 m2 F4, the book has 65,536 bytes and holds 20 records before; the 300 are new and have room. keeper is told that it
// has the lock, since it is alone. It has answered a time request before the clock starts, so that its start is not in the time, and the clock
// stops at the last reply. Ends with 1 where a reply is missing or the book does not hold 320 records then.
#define _GNU_SOURCE
#include <fcntl.h>
#include <stdio.h>
#include <sys/wait.h>
#include <time.h>
#include <unistd.h>

#include "../pasis.h"
#include "waiting.h"

enum { HELD = 20, WAITING = 300, REPLY = PASIS_FRAME_HEAD + PASIS_TIMESTAMP_SIZE, PIPE = 1 << 20 };
static const char text[] = "N 5\nt 1\nb 1\nQ 3\nm 2\nF 4\nmember repairable\nclients crash\nW 16\n";
static const struct pasis_plan values = {5, 1, 1, 3, 2, 4, PASIS_REPAIRABLE, PASIS_CRASH, 16};
static uint8_t plan[PASIS_PLAN_SIZE], book[PASIS_BOOK_MOST], reply[PASIS_FRAME_SIZE(5, 4)], frames[(HELD + WAITING) * PASIS_FRAME_SIZE(5, 4)];

static void fail(const char *why) {
  fprintf(stderr, "keeper: %s\n", why);
  exit(1);
}

static void store(const char *name, const void *bytes, size_t length) {
  FILE *file = fopen(name, "wb");
  if (!file || fwrite(bytes, 1, length, file) != length || fflush(file) || fsync(fileno(file)) || fclose(file)) fail("a file cannot be written");
}

// Plan and book, in this folder.
static void lay_out(size_t frame) {
  if (pasis_fresh_book(plan, sizeof plan, 0, book, sizeof book) != PASIS_OK) fail("no fresh book");
  for (size_t i = 0; i < HELD; i++)
    if (pasis_node(plan, sizeof plan, frames + i * frame, frame, book, sizeof book, reply, sizeof reply) != PASIS_OK) fail("a record was refused");
  store("PLAN", text, sizeof text - 1);
  store("BOOK.plan", text, sizeof text - 1);
  store("BOOK", book, sizeof book);
}

static int to, from;

static pid_t start(char **words, int count) {
  int in[2], out[2];
  char **command = calloc((size_t)count + 4, sizeof *command);
  if (!command || pipe(in) || pipe(out)) fail("no pipes");
  fcntl(in[1], F_SETPIPE_SZ, PIPE); // so that all requests have room in it; where it stays smaller, keeper makes room as it reads
  memcpy(command, words, (size_t)count * sizeof *command);
  command[count] = "PLAN", command[count + 1] = "BOOK", command[count + 2] = "locked";
  pid_t child = fork();
  if (child < 0) fail("no process");
  if (child == 0) {
    if (dup2(in[0], 0) < 0 || dup2(out[1], 1) < 0) _exit(1);
    close(in[0]), close(in[1]), close(out[0]), close(out[1]);
    execvp(command[0], command);
    _exit(1);
  }
  close(in[0]), close(out[1]);
  to = in[1], from = out[0];
  free(command);
  return child;
}

static void send(const uint8_t *bytes, size_t length) {
  while (length) {
    ssize_t sent = write(to, bytes, length);
    if (sent <= 0) fail("keeper takes no bytes");
    bytes += sent, length -= (size_t)sent;
  }
}

static void hear(uint8_t *bytes, size_t length) {
  while (length) {
    ssize_t came = read(from, bytes, length);
    if (came <= 0) fail("a reply is missing");
    bytes += came, length -= (size_t)came;
  }
}

static double now(void) {
  struct timespec t;
  clock_gettime(CLOCK_MONOTONIC, &t);
  return (double)t.tv_sec + (double)t.tv_nsec / 1e9;
}

int main(int count, char **words) {
  if (count < 4 || (strcmp(words[1], "waiting") && strcmp(words[1], "singly"))) fail("usage: keeper waiting|singly FOLDER WORD..");
  static uint8_t replies[WAITING * REPLY];
  const uint8_t time_request[] = {0, 0, 0, 11, 1, 1, 0, 0, 0, 0, 0, 0, 0, 0, 9};
  size_t frame = PASIS_FRAME_SIZE(5, 4), at_once = strcmp(words[1], "waiting") ? 1 : WAITING;
  pasis_plan_bytes(&values, plan);
  if (waiting(plan, 1, HELD + WAITING, frames) != sizeof frames) fail("no requests");
  if (chdir(words[2])) fail("no such folder");
  lay_out(frame);
  pid_t child = start(words + 3, count - 3);
  send(time_request, sizeof time_request);
  hear(reply, PASIS_FRAME_HEAD + 8);

  double begun = now();
  for (size_t i = 0; i < WAITING; i += at_once) {
    send(frames + (HELD + i) * frame, at_once * frame);
    hear(replies + i * REPLY, at_once * REPLY);
  }
  double took = now() - begun;

  close(to);
  waitpid(child, NULL, 0);
  for (size_t i = 0; i < WAITING; i++)
    if (replies[i * REPLY + 5] != 4 || memcmp(replies + i * REPLY + 7, frames + (HELD + i) * frame + 7, 8 + PASIS_TIMESTAMP_SIZE))
      fail("a reply is not that of its request");
  FILE *file = fopen("BOOK", "rb");
  if (!file || fread(book, 1, sizeof book, file) != sizeof book || pasis_number(book + 9, 2) != HELD + WAITING) fail("the book does not hold all");
  printf("%.1f\n", WAITING / took);
  return 0;
}
