// painted.h: a call on a stack of its own that was painted before, and how far down the paint is gone. Counted from the frame of the
// function that makes the call, so its own few bytes are in each figure. A part of a frame that is never written leaves its paint, so
// this is a lower bound; deepest.awk gives the upper one.
#define _GNU_SOURCE
#include <pthread.h>
#include <stdint.h>
#include <stdio.h>
#include <stdlib.h>
#include <string.h>

enum { STACK = 1 << 20, PAINT = 0xa5 };

static uint8_t *painted;
static uintptr_t top;

static void fail(const char *what, const char *why) {
  fprintf(stderr, "stack: %s: %s\n", what, why);
  exit(1);
}

static void *make(void *call) {
  top = (uintptr_t)__builtin_frame_address(0);
  (*(void (**)(void))call)();
  return NULL;
}

// One call on a painted stack: the bytes it used.
static long used(const char *what, void (*call)(void)) {
  pthread_attr_t how;
  pthread_t thread;
  if (!painted && posix_memalign((void **)&painted, 1 << 16, STACK)) fail("memory", "none");
  memset(painted, PAINT, STACK);
  if (pthread_attr_init(&how) || pthread_attr_setstack(&how, painted, STACK)) fail(what, "no stack of its own");
  if (pthread_create(&thread, &how, make, &call) || pthread_join(thread, NULL)) fail(what, "no thread");
  pthread_attr_destroy(&how);
  const uint8_t *at = painted;
  while (*at == PAINT) at++;
  if (at < painted + STACK / 2) fail(what, "the stack was too small to tell");
  return (long)(top - (uintptr_t)at);
}
