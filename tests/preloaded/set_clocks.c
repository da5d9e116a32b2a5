/* Preloaded into a program, sets its clocks: they stand at the nanoseconds that the file CLOCKS has, those of CLOCK_REALTIME in its
   first eight bytes, and those of the clocks that never go back in the next eight. A clock with a number below zero fails. */
#define _GNU_SOURCE
#include <errno.h>
#include <fcntl.h>
#include <stdint.h>
#include <stdlib.h>
#include <sys/mman.h>
#include <time.h>
#include <unistd.h>

enum { SECOND = 1000000000 };

static const volatile int64_t *clocks;

__attribute__((constructor)) static void begin(void) {
  clocks = mmap(NULL, 2 * sizeof *clocks, PROT_READ, MAP_SHARED, open(getenv("CLOCKS"), O_RDONLY), 0);
  if (clocks == MAP_FAILED)
    _exit(99);
}

int clock_gettime(clockid_t clock, struct timespec *time) {
  int64_t now = clocks[clock == CLOCK_REALTIME ? 0 : 1];
  if (now < 0) {
    errno = EINVAL;
    return -1;
  }
  time->tv_sec = now / SECOND;
  time->tv_nsec = now % SECOND;
  return 0;
}
