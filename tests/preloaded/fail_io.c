/* Preloaded into a program, makes its reads of standard input and its writes to standard output short or fail. Each moves
   at most IO_SHORT bytes, where that is given; read number FAIL_READ and write number FAIL_WRITE, counted from 1, fail with EIO;
   write number TAKE_NONE takes no byte; and each read or write whose number is no multiple of IO_INTERRUPT, where that is given,
   is interrupted (EINTR). For each failure, and for a write that takes none, it writes a byte to the file descriptor
   FAIL_REPORT. */
#define _GNU_SOURCE
#include <dlfcn.h>
#include <errno.h>
#include <stdlib.h>
#include <sys/types.h>
#include <sys/uio.h>
#include <unistd.h>

enum { INPUT, OUTPUT, STREAMS };

static unsigned long counts[STREAMS];

/* Returns the number in a variable of the environment, or 0. */
static unsigned long number_in(const char *name) {
  const char *text = getenv(name);
  return text ? strtoul(text, NULL, 10) : 0;
}

static ssize_t real_write(int fd, const void *bytes, size_t count) {
  static ssize_t (*real)(int, const void *, size_t);
  if (!real)
    real = (ssize_t(*)(int, const void *, size_t))dlsym(RTLD_NEXT, "write");
  return real(fd, bytes, count);
}

/* Returns the error of a call of a number on a stream, or 0 for none. */
static int error_of(int stream, unsigned long number) {
  unsigned long whole = number_in("IO_INTERRUPT");
  if (whole && number % whole != 0)
    return EINTR;
  return number == number_in(stream == INPUT ? "FAIL_READ" : "FAIL_WRITE") ? EIO : 0;
}

static void report(void) {
  if (real_write((int)number_in("FAIL_REPORT"), "x", 1) != 1)
    _exit(99);
}

/* Counts a call on a stream, and returns whether it fails. */
static int fails(int stream) {
  int error = error_of(stream, ++counts[stream]);
  if (error == 0)
    return 0;
  report();
  errno = error;
  return 1;
}

/* Returns whether the write that was counted last takes no byte. */
static int takes_none(void) {
  if (counts[OUTPUT] != number_in("TAKE_NONE"))
    return 0;
  report();
  return 1;
}

/* Returns how many bytes a call moves at most. */
static size_t most(size_t count) {
  size_t limit = number_in("IO_SHORT");
  return limit && limit < count ? limit : count;
}

ssize_t read(int fd, void *bytes, size_t count) {
  static ssize_t (*real)(int, void *, size_t);
  if (!real)
    real = (ssize_t(*)(int, void *, size_t))dlsym(RTLD_NEXT, "read");
  if (fd != STDIN_FILENO)
    return real(fd, bytes, count);
  return fails(INPUT) ? -1 : real(fd, bytes, most(count));
}

ssize_t write(int fd, const void *bytes, size_t count) {
  if (fd != STDOUT_FILENO)
    return real_write(fd, bytes, count);
  if (fails(OUTPUT))
    return -1;
  return takes_none() ? 0 : real_write(fd, bytes, most(count));
}
