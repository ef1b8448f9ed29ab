#define _GNU_SOURCE
#include <dlfcn.h>
#include <stdio.h>
#include <stdlib.h>
#include <sys/syscall.h>
#include <unistd.h>

static long calls = 0;

static int is_refused(void) {
  static long refused = -1;
  if (refused < 0) {
    const char *number = getenv("REFUSED_CALL");
    refused = number == NULL ? 0 : atol(number);
  }
  /* A restart allocates in several threads. */
  return __atomic_add_fetch(&calls, 1, __ATOMIC_RELAXED) == refused;
}

void *malloc(size_t size) {
  static void *(*real)(size_t) = NULL;
  if (real == NULL) real = (void *(*)(size_t))dlsym(RTLD_NEXT, "malloc");
  return is_refused() ? NULL : real(size);
}

void *realloc(void *place, size_t size) {
  static void *(*real)(void *, size_t) = NULL;
  if (real == NULL) real = (void *(*)(void *, size_t))dlsym(RTLD_NEXT, "realloc");
  return is_refused() ? NULL : real(place, size);
}

__attribute__((destructor)) static void tell(void) {
  if (getenv("COUNT_CALLS") != NULL) fprintf(stderr, "calls=%ld\n", calls);
}

/* A program with threads leaves without what is done at an end. */
void _exit(int status) {
  tell();
  syscall(SYS_exit_group, status);
  __builtin_unreachable();
}
