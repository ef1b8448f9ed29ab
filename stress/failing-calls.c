#define _GNU_SOURCE
#include <dlfcn.h>
#include <errno.h>
#include <fcntl.h>
#include <pthread.h>
#include <stdarg.h>
#include <stdio.h>
#include <stdlib.h>
#include <string.h>
#include <sys/stat.h>
#include <sys/syscall.h>
#include <sys/uio.h>
#include <unistd.h>

// What is counted: 'm' allocations, 'l' those of them after the last write to the folder's files,
// 'd' calls on the folder, 'w' writes to its files, 'r' reads of these, 'y' syncs of these and of
// the folder itself, 't' threads that are started, 's' and 'i' reads and writes of whatever file.
static int what = 0;
static long chosen = 0, calls = 0;
static const char *folder = NULL;
static char inside[1024];

static void begin(void) {
  const char *word;
  if (what != 0) return;
  word = getenv("TRY_CALL");
  chosen = word == NULL ? 0 : atol(word);
  folder = getenv("TRY_FOLDER");
  word = getenv("TRY_WHAT");
  what = word == NULL ? '-' : word[0];
}

// Whether this call is counted, and is the chosen one.
static int is_chosen(int of) {
  begin();
  return what == of && __atomic_add_fetch(&calls, 1, __ATOMIC_SEQ_CST) == chosen;
}

static int names_folder(const char *path) {
  begin();
  return folder != NULL && path != NULL && strncmp(path, folder, strlen(folder)) == 0;
}

static int is_inside(int file) { return file >= 0 && file < 1024 && inside[file]; }

static int fails(void) {
  errno = EIO;
  return -1;
}

// Writes down how many calls were counted, by none of the calls that are.
__attribute__((destructor)) static void tell(void) {
  const char *path = getenv("TRY_REPORT");
  char text[32];
  long file = -1;
  if (path != NULL) file = syscall(SYS_openat, AT_FDCWD, path, O_WRONLY | O_CREAT | O_TRUNC, 0600);
  if (file < 0) return;
  syscall(SYS_write, file, text, snprintf(text, sizeof text, "%ld\n", calls));
  syscall(SYS_close, file);
}

// The program may leave without what is done at an end.
void _exit(int status) {
  tell();
  syscall(SYS_exit_group, status);
  __builtin_unreachable();
}

#define REAL(name) \
  static __typeof__(&name) real = NULL; \
  if (real == NULL) real = (__typeof__(&name))dlsym(RTLD_NEXT, #name)

static int is_refused(void) {
  is_chosen('l');
  return is_chosen('m');
}

void *malloc(size_t size) {
  REAL(malloc);
  return is_refused() ? NULL : real(size);
}

void *realloc(void *place, size_t size) {
  REAL(realloc);
  return is_refused() ? NULL : real(place, size);
}

int pthread_create(pthread_t *restrict thread, const pthread_attr_t *restrict attributes,
                   void *(*start)(void *), void *restrict argument) {
  REAL(pthread_create);
  is_chosen('t');
  return real(thread, attributes, start, argument);
}

#define OPENAT(name) \
  int name(int at, const char *path, int flags, ...) { \
    REAL(name); \
    mode_t mode = 0; \
    va_list rest; \
    va_start(rest, flags); \
    if (flags & (O_CREAT | __O_TMPFILE)) mode = va_arg(rest, mode_t); \
    va_end(rest); \
    if (!names_folder(path)) return real(at, path, flags, mode); \
    if (is_chosen('d')) return fails(); \
    int file = real(at, path, flags, mode); \
    if (file >= 0 && file < 1024) inside[file] = 1; \
    return file; \
  }
OPENAT(openat)
OPENAT(openat64)

#define OPEN(name) \
  int name(const char *path, int flags, ...) { \
    REAL(name); \
    mode_t mode = 0; \
    va_list rest; \
    va_start(rest, flags); \
    if (flags & (O_CREAT | __O_TMPFILE)) mode = va_arg(rest, mode_t); \
    va_end(rest); \
    if (!names_folder(path)) return real(path, flags, mode); \
    if (is_chosen('d')) return fails(); \
    int file = real(path, flags, mode); \
    if (file >= 0 && file < 1024) inside[file] = 1; \
    return file; \
  }
OPEN(open)
OPEN(open64)

int close(int file) {
  REAL(close);
  if (file >= 0 && file < 1024) inside[file] = 0;
  return real(file);
}

int statx(int at, const char *restrict path, int flags, unsigned int mask,
          struct statx *restrict into) {
  REAL(statx);
  int is_of_folder = path != NULL && path[0] != 0 ? names_folder(path) : is_inside(at);
  return is_of_folder && is_chosen('d') ? fails() : real(at, path, flags, mask, into);
}

#define STATAT(name, of) \
  int name(int at, const char *restrict path, of *restrict into, int flags) { \
    REAL(name); \
    int is_of_folder = path != NULL && path[0] != 0 ? names_folder(path) : is_inside(at); \
    return is_of_folder && is_chosen('d') ? fails() : real(at, path, into, flags); \
  }
STATAT(fstatat, struct stat)
STATAT(fstatat64, struct stat64)

#define STAT(name, of) \
  int name(const char *restrict path, of *restrict into) { \
    REAL(name); \
    return names_folder(path) && is_chosen('d') ? fails() : real(path, into); \
  }
STAT(stat, struct stat)
STAT(stat64, struct stat64)
STAT(lstat, struct stat)
STAT(lstat64, struct stat64)

#define FSTAT(name, of) \
  int name(int file, of *into) { \
    REAL(name); \
    return is_inside(file) && is_chosen('d') ? fails() : real(file, into); \
  }
FSTAT(fstat, struct stat)
FSTAT(fstat64, struct stat64)

#define ON_FILE(name) \
  int name(int file) { \
    REAL(name); \
    if (is_inside(file) && (is_chosen('d') || is_chosen('y'))) return fails(); \
    return real(file); \
  }
ON_FILE(fsync)
ON_FILE(fdatasync)

int flock(int file, int operation) {
  REAL(flock);
  return is_inside(file) && is_chosen('d') ? fails() : real(file, operation);
}

// How many bytes a chosen read or write takes; -1 where it is interrupted.
static ssize_t taken(size_t count) {
  begin();
  if (what == 'i' && is_chosen('i')) {
    errno = EINTR;
    return -1;
  }
  return what == 's' && count > 1 && is_chosen('s') ? (ssize_t)(count / 2) : (ssize_t)count;
}

#define MOVES_AT(name, of, offset_of, is_write) \
  ssize_t name(int file, of bytes, size_t count, offset_of offset) { \
    REAL(name); \
    if (is_inside(file) && (is_chosen('d') || is_chosen(is_write ? 'w' : 'r'))) return fails(); \
    if (is_write && what == 'l' && is_inside(file)) calls = 0; \
    ssize_t many = taken(count); \
    return many < 0 ? -1 : real(file, bytes, (size_t)many, offset); \
  }
MOVES_AT(pread, void *, off_t, 0)
MOVES_AT(pread64, void *, off64_t, 0)
MOVES_AT(pwrite, const void *, off_t, 1)
MOVES_AT(pwrite64, const void *, off64_t, 1)

#define MOVES(name, real_name, of) \
  ssize_t name(int file, of bytes, size_t count) { \
    REAL(real_name); \
    ssize_t many = taken(count); \
    return many < 0 ? -1 : real(file, bytes, (size_t)many); \
  }
MOVES(read, read, void *)
MOVES(write, write, const void *)
// By this name the program calls it too.
MOVES(__write, write, const void *)
