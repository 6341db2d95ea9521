/* Refuses one allocation of a program, or threads, fails one of its reads and writes, or cuts one short. The scripts of this folder
   compile it and give it to the built program by LD_PRELOAD.

   REFUSE_ALLOC=N  the Nth allocation is refused
   REFUSE_THREADS  so many threads are started, and no more
   RANDOM_ALLOCS=N, RANDOM_THREADS=N  one in N, at random by SEED, is refused
   FAIL_IO=N       the Nth read of a file, or write, fails
   SHORT_IO=N      the Nth read of a file, or write, of several bytes moves one
   TELL=FILE       the numbers of all three are written to FILE at the end */
#define _GNU_SOURCE
#include <errno.h>
#include <dlfcn.h>
#include <fcntl.h>
#include <pthread.h>
#include <stdatomic.h>
#include <stdio.h>
#include <stdlib.h>
#include <sys/syscall.h>
#include <unistd.h>

void *__libc_malloc(size_t);
void *__libc_realloc(void *, size_t);

static atomic_long allocations, threads, transfers, long_transfers;
static long refused, most_threads = -1, failed, cut, one_in_allocations, one_in_threads;
static atomic_ulong drawn;
static const char *told;

static long number(const char *name) {
  const char *text = getenv(name);
  return text ? atol(text) : 0;
}

__attribute__((constructor)) static void begin(void) {
  refused = number("REFUSE_ALLOC");
  if (getenv("REFUSE_THREADS")) most_threads = number("REFUSE_THREADS");
  failed = number("FAIL_IO");
  cut = number("SHORT_IO");
  one_in_allocations = number("RANDOM_ALLOCS");
  one_in_threads = number("RANDOM_THREADS");
  drawn = number("SEED");
  told = getenv("TELL");
  allocations = 0;
}

/* The program ends so. */
void _exit(int status) {
  if (told) {
    char text[80];
    int length = snprintf(text, sizeof text, "%ld %ld %ld\n", (long)allocations, (long)transfers, (long)long_transfers);
    int file = syscall(SYS_openat, AT_FDCWD, told, O_WRONLY | O_CREAT | O_TRUNC, 0666);
    syscall(SYS_write, file, text, length);
  }
  for (;;) syscall(SYS_exit_group, status);
}

/* Whether this one of so many is drawn. */
static int is_drawn(long one_in) {
  if (!one_in) return 0;
  unsigned long at = atomic_fetch_add(&drawn, 1) * 0x9e3779b97f4a7c15;
  at = (at ^ (at >> 29)) * 0xbf58476d1ce4e5b9;
  return (at >> 33) % one_in == 0;
}

static int is_refused(void) {
  if (atomic_fetch_add(&allocations, 1) + 1 != refused && !is_drawn(one_in_allocations)) return 0;
  errno = ENOMEM;
  return 1;
}

void *malloc(size_t size) { return is_refused() ? NULL : __libc_malloc(size); }

void *realloc(void *old, size_t size) { return is_refused() ? NULL : __libc_realloc(old, size); }

int pthread_create(pthread_t *made, const pthread_attr_t *how, void *(*start)(void *), void *with) {
  if (most_threads >= 0 && atomic_fetch_add(&threads, 1) >= most_threads) return EAGAIN;
  if (is_drawn(one_in_threads)) return EAGAIN;
  int (*create)(pthread_t *, const pthread_attr_t *, void *(*)(void *), void *) = dlsym(RTLD_NEXT, "pthread_create");
  return create(made, how, start, with);
}

/* How many bytes a transfer may move, or -1 where it is to fail. */
static ssize_t allowed(size_t size) {
  if (atomic_fetch_add(&transfers, 1) + 1 == failed) {
    errno = EIO;
    return -1;
  }
  return size > 1 && atomic_fetch_add(&long_transfers, 1) + 1 == cut ? 1 : size;
}

ssize_t read(int file, void *bytes, size_t size) {
  ssize_t most = allowed(size);
  return most < 0 ? -1 : syscall(SYS_read, file, bytes, most);
}

ssize_t write(int file, const void *bytes, size_t size) {
  ssize_t most = allowed(size);
  return most < 0 ? -1 : syscall(SYS_write, file, bytes, most);
}
