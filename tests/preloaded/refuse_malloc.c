/* Preloaded into a program, refuses some of its allocations: those whose numbers, counted from 1, lie
   in REFUSE_FIRST to REFUSE_LAST. For each it writes a byte to the file descriptor REFUSE_REPORT. The number
   of all so far is kept in the first bytes of the file COUNT_FILE, where that is given. */
#define _GNU_SOURCE
#include <dlfcn.h>
#include <errno.h>
#include <fcntl.h>
#include <stddef.h>
#include <stdlib.h>
#include <sys/mman.h>
#include <unistd.h>

static unsigned long first, last, own_count;
static unsigned long *count = &own_count;
static int report_to;

/* Returns the number in a variable of the environment, or 0. */
static unsigned long number_in(const char *name) {
  const char *text = getenv(name);
  return text ? strtoul(text, NULL, 10) : 0;
}

/* Maps the count to a file. */
static void count_in(const char *name) {
  count = mmap(NULL, sizeof *count, PROT_READ | PROT_WRITE, MAP_SHARED, open(name, O_RDWR), 0);
  if (count == MAP_FAILED)
    _exit(99);
}

/* Runs before `main`: earlier allocations are not counted. */
__attribute__((constructor)) static void begin(void) {
  first = number_in("REFUSE_FIRST");
  last = number_in("REFUSE_LAST");
  report_to = (int)number_in("REFUSE_REPORT");
  if (getenv("COUNT_FILE"))
    count_in(getenv("COUNT_FILE"));
  *count = 0;
}

/* Counts an allocation, and returns whether it is refused. */
static int refused(void) {
  *count += 1;
  if (*count < first || *count > last)
    return 0;
  if (write(report_to, "x", 1) != 1)
    _exit(99);
  errno = ENOMEM;
  return 1;
}

void *malloc(size_t size) {
  static void *(*real)(size_t);
  if (!real)
    real = (void *(*)(size_t))dlsym(RTLD_NEXT, "malloc");
  return refused() ? NULL : real(size);
}

void *calloc(size_t number, size_t size) {
  static void *(*real)(size_t, size_t);
  if (!real)
    real = (void *(*)(size_t, size_t))dlsym(RTLD_NEXT, "calloc");
  return refused() ? NULL : real(number, size);
}

void *realloc(void *old, size_t size) {
  static void *(*real)(void *, size_t);
  if (!real)
    real = (void *(*)(void *, size_t))dlsym(RTLD_NEXT, "realloc");
  return refused() ? NULL : real(old, size);
}

void *aligned_alloc(size_t alignment, size_t size) {
  static void *(*real)(size_t, size_t);
  if (!real)
    real = (void *(*)(size_t, size_t))dlsym(RTLD_NEXT, "aligned_alloc");
  return refused() ? NULL : real(alignment, size);
}

int posix_memalign(void **out, size_t alignment, size_t size) {
  static int (*real)(void **, size_t, size_t);
  if (!real)
    real = (int (*)(void **, size_t, size_t))dlsym(RTLD_NEXT, "posix_memalign");
  return refused() ? ENOMEM : real(out, alignment, size);
}
