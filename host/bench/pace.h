// How long a call of `work` takes, in seconds of processor time, after a twentieth of a second of calls: the best of twenty stretches of a
// hundredth of a second, so that what else the machine does meanwhile counts little. The including file asks for POSIX 2008.
#include <time.h>

static double seconds(void) {
  struct timespec now;
  clock_gettime(CLOCK_PROCESS_CPUTIME_ID, &now);
  return (double)now.tv_sec + (double)now.tv_nsec / 1e9;
}

static double pace(void (*work)(void)) {
  unsigned long calls = 0;
  double start = seconds(), best = 0;
  do {
    work();
    calls++;
  } while (seconds() - start < 0.05);
  calls = calls / 5 + 1;
  for (int stretch = 0; stretch < 20; stretch++) {
    start = seconds();
    for (unsigned long i = 0; i < calls; i++) work();
    double took = seconds() - start;
    if (stretch == 0 || took < best) best = took;
  }
  return best / (double)calls;
}
