/* Preloaded into a program, it refuses one request for memory: the one whose number, counted from 1 over all threads, is REFUSE. The number of requests
   stands in the first eight bytes of the file COUNT, which is there already, however the program ends. */
#define _GNU_SOURCE
#include <dlfcn.h>
#include <errno.h>
#include <fcntl.h>
#include <stdatomic.h>
#include <stdlib.h>
#include <sys/mman.h>

static atomic_long before_main;
static atomic_long *requests = &before_main;
static long refused;

__attribute__((constructor)) static void begin(void) {
  int file = open(getenv("COUNT"), O_RDWR);
  void *place = mmap(NULL, sizeof *requests, PROT_READ | PROT_WRITE, MAP_SHARED, file, 0);
  if (place == MAP_FAILED) abort();
  refused = atol(getenv("REFUSE"));
  requests = place;
}

static int refuses(void) {
  if (atomic_fetch_add(requests, 1) + 1 != refused) return 0;
  errno = ENOMEM;
  return 1;
}

void *malloc(size_t size) {
  static void *(*ample)(size_t);
  if (!ample) ample = dlsym(RTLD_NEXT, "malloc");
  return refuses() ? NULL : ample(size);
}

void *realloc(void *old, size_t size) {
  static void *(*ample)(void *, size_t);
  if (!ample) ample = dlsym(RTLD_NEXT, "realloc");
  return refuses() ? NULL : ample(old, size);
}
