/* Faults of a program, each in a library of its own that is loaded ahead of C's: the one that -DFAULT_NAME names. */
#include "../../dev/nixkeep_dev/testing/preload.h"
#include <netinet/in.h>
#include <stdarg.h>
#include <stdio.h>
#include <string.h>
#include <sys/file.h>
#include <sys/socket.h>
#include <sys/stat.h>

enum { MOST = 4096 };

/* Whether an open file is a folder, or has a path that ends so. */
static inline int is_folder(int fd) {
  struct stat seen;
  return !fstat(fd, &seen) && S_ISDIR(seen.st_mode);
}

static inline int ends_in(int fd, const char *end) {
  char link[64], path[MOST];
  snprintf(link, sizeof link, "/proc/self/fd/%d", fd);
  ssize_t size = readlink(link, path, MOST - 1);
  if (size < (ssize_t)strlen(end)) return 0;
  path[size] = 0;
  return !strcmp(path + size - strlen(end), end);
}

/* ---- files */

#if defined FAULT_FILE_NOT_SYNCED
#define IS_LOST(fd) (!is_folder(fd) && !ends_in(fd, "-wal"))
#elif defined FAULT_LOG_NOT_SYNCED
#define IS_LOST(fd) ends_in(fd, "-wal")
#elif defined FAULT_FOLDER_NOT_SYNCED
#define IS_LOST(fd) is_folder(fd)
#endif
#ifdef IS_LOST
int fsync(int fd) { NEXT(fsync); return IS_LOST(fd) ? 0 : next(fd); }
int fdatasync(int fd) { NEXT(fdatasync); return IS_LOST(fd) ? 0 : next(fd); }
#endif

#ifdef FAULT_LOST_CHANGE
/* (each eighth change of a log counts as written) */
ssize_t pwrite64(int fd, const void *from, size_t size, off_t at) {
  NEXT(pwrite64);
  static int changes;
  return ends_in(fd, "-wal") && ++changes % 8 == 0 ? (ssize_t)size : next(fd, from, size, at);
}
ssize_t pwrite(int fd, const void *from, size_t size, off_t at) { return pwrite64(fd, from, size, at); }
#endif

#ifdef FAULT_NO_LOCK
int flock(int fd, int how) { (void)fd, (void)how; return 0; }
int fcntl(int fd, int what, ...) {
  NEXT(fcntl);
  va_list more;
  va_start(more, what);
  void *given = va_arg(more, void *);
  va_end(more);
  return what == F_SETLK || what == F_OFD_SETLK ? 0 : next(fd, what, given);
}
#endif

#if defined FAULT_OPEN_TO_ALL || defined FAULT_ANOTHER_FILE || defined FAULT_OTHERS_FILE
int open(const char *path, int how, ...) {
  NEXT(open);
  va_list more;
  va_start(more, how);
  unsigned mode = how & O_CREAT ? va_arg(more, unsigned) : 0;
  va_end(more);
#ifdef FAULT_OPEN_TO_ALL
  int fd = next(path, how, mode);
  if (fd >= 0 && how & O_CREAT) fchmod(fd, 0666);
  return fd;
#elif defined FAULT_OTHERS_FILE
  char name[MOST];
  snprintf(name, sizeof name, "%s", path);
  char *own = strstr(name, "/1.db");
  if (own) own[1] = '0';
  return next(name, how, mode);
#else
  char name[MOST];
  size_t size = strlen(path);
  while (size > 1 && size < MOST && path[size - 1] == ' ') size--;
  snprintf(name, sizeof name, "%.*s", (int)size, path);
  return next(name, how, mode);
#endif
}
#endif

/* ---- connections */

#ifdef FAULT_EVERY_ADDRESS
int bind(int fd, const struct sockaddr *to, socklen_t size) {
  NEXT(bind);
  struct sockaddr_in any = *(const struct sockaddr_in *)to;
  any.sin_addr.s_addr = INADDR_ANY;
  return next(fd, to->sa_family == AF_INET ? (struct sockaddr *)&any : to, size);
}
#endif

#ifdef FAULT_NO_TIME_LIMIT
int setsockopt(int fd, int level, int name, const void *value, socklen_t size) {
  NEXT(setsockopt);
  int is_limit = level == SOL_SOCKET && (name == SO_RCVTIMEO || name == SO_SNDTIMEO);
  return is_limit ? 0 : next(fd, level, name, value, size);
}
#endif

#ifdef FAULT_SOCKETS_STAY_OPEN
int close(int fd) {
  NEXT(close);
  struct stat seen;
  return !fstat(fd, &seen) && S_ISSOCK(seen.st_mode) ? shutdown(fd, SHUT_RDWR) * 0 : next(fd);
}
#endif

#ifdef FAULT_HELD_UP
/* (a minute after each connection that its client has given up) */
int shutdown(int fd, int how) {
  NEXT(shutdown);
  int done = next(fd, how);
  if (done) sleep(60);
  return done;
}
#endif

#ifdef FAULT_MEMORY_LOST
static char *volatile lost;
int accept4(int fd, struct sockaddr *from, socklen_t *size, int how) {
  NEXT(accept4);
  if ((lost = malloc(10 << 10))) memset(lost, 1, 10 << 10);
  return next(fd, from, size, how);
}
#endif

#ifdef FAULT_BLOCK_LOST
static char *volatile block;
ssize_t read(int fd, void *to, size_t size) {
  NEXT(read);
  if (fd == 0 && (block = malloc(9))) *block = 1;
  return next(fd, to, size);
}
#endif

#ifdef FAULT_LOST_BYTE
/* (the first of the second piece that comes) */
ssize_t read(int fd, void *to, size_t size) {
  NEXT(read);
  static int pieces;
  ssize_t done = next(fd, to, size);
  if (fd == 0 && done > 1 && ++pieces == 2) memmove(to, (char *)to + 1, --done);
  return done;
}
#endif

#ifdef FAULT_SLOW_SENDS
ssize_t send(int fd, const void *from, size_t size, int how) {
  NEXT(send);
  usleep(50000);
  return next(fd, from, size, how);
}
#endif

/* ---- what is written: a copy in which something is otherwise, of which all counts as written */

#if defined FAULT_FLIPPED_BIT || defined FAULT_CUT_REPLY || defined FAULT_DISK_AS_MEMORY || defined FAULT_MEMORY_AS_DISK \
    || defined LINES || defined FAULT_LOST_ROOT || defined FAULT_ANOTHER_STATUS \
    || defined FAULT_LOST_FIELD
static ssize_t changed(char *made, const char *from, size_t size) {
#if defined FAULT_FLIPPED_BIT
  /* (one bit, late in what a process writes) */
  static size_t before;
  size_t at = 300000;
  memcpy(made, from, size);
  if (before <= at && at < before + size) made[at - before] ^= 1;
  before += size;
  return size;
#elif defined FAULT_CUT_REPLY
  memcpy(made, from, size);
  return size > 65 ? size / 2 : size;
#elif defined FAULT_ANOTHER_STATUS
  memcpy(made, from, size);
  if (size > 12 && !memcmp(from, "HTTP/1.1 404", 12)) memcpy(made + 9, "200", 3);
  return size;
#elif defined FAULT_LOST_FIELD
  /* (the whole line) */
  const char *field = memmem(from, size, "\nallow: ", 8), *end = from + size;
  const char *next = field ? memchr(field + 1, '\n', end - field - 1) : NULL;
  if (!next) field = next = end;
  memcpy(made, from, field - from);
  memcpy(made + (field - from), next, end - next);
  return size - (next - field);
#elif defined FAULT_DISK_AS_MEMORY || defined FAULT_MEMORY_AS_DISK
#ifdef FAULT_DISK_AS_MEMORY
  const char *was = "refused: 21 bad-schema\n", *is = "failed: memory\n";
#else
  const char *was = "failed: memory\n", *is = "failed: disk\n";
#endif
  int is_that = size == strlen(was) && !memcmp(from, was, size);
  memcpy(made, is_that ? is : from, is_that ? strlen(is) : size);
  return is_that ? strlen(is) : size;
#elif defined FAULT_LOST_ROOT
  /* (the last of several lines of roots) */
  size_t left = size;
  memcpy(made, from, size);
  if (size > 9 && (!memcmp(from, "gcroots/", 8) || !memcmp(from, "profiles/", 9)))
    while (left > 1 && from[left - 2] != '\n') left--;
  return left > 1 ? left - 1 : size;
#else
  /* (the lines of paths after the first LINES) */
  static size_t lines;
  size_t left = 0;
  memcpy(made, from, size);
  if (size < 11 || (memcmp(from, "/nix/store/", 11) && !lines)) return size;
  while (left < size && lines < LINES) lines += from[left++] == '\n';
  return left;
#endif
}

ssize_t write(int fd, const void *from, size_t size) {
  NEXT(write);
  if (fd > 2) return next(fd, from, size);
  char *made = malloc(size + 16);
  ssize_t left = changed(made, from, size), done = left ? next(fd, made, left) : 0;
  free(made);
  return done < 0 ? done : (ssize_t)size;
}
#endif
