/* Ends the process as it is about to make the call STOP_AT that changes a file whose path begins with STOP_IN; half of a
   write is made if STOP_TORN is set. If STOP_FAILS is set, reads count too, and in place of an end that call and
   all after it fail. What a file has when it is synced is copied to a file next to it; the file LOST isn't synced. Where
   a folder is synced, each file in it that counts gets an empty file next to it: its name stays. */
#include "preload.h"
#include <errno.h>
#include <stdio.h>
#include <string.h>
#include <sys/types.h>

enum { STOPPED = 77, MOST = 4096 };

static int is_within(const char *path) {
  const char *in = getenv("STOP_IN");
  return in && !strncmp(path, in, strlen(in));
}

/* Whether an open file is one that counts; its path. */
static int path_of(int fd, char *path) {
  char link[64];
  snprintf(link, sizeof link, "/proc/self/fd/%d", fd);
  ssize_t size = readlink(link, path, MOST - 1);
  path[size < 0 ? 0 : size] = 0;
  if (size < 0) return 0;
  return is_within(path);
}

/* Counts a call: whether the process has to stop at it, or the call fails. */
static int is_due(void) {
  unsigned long now = ++counts()->calls, at = number("STOP_AT");
  return now == at || (getenv("STOP_FAILS") && at && now > at);
}

/* The same for a call on an open file, if that one counts. */
static int is_stop(int fd) {
  char path[MOST];
  return path_of(fd, path) && is_due();
}

/* Whether a read of an open file fails. */
static int is_unread(int fd) { return getenv("STOP_FAILS") && is_stop(fd); }

/* The end of the process, or what a call returns that fails. */
static int stopped(void) {
  if (!getenv("STOP_FAILS")) _exit(STOPPED);
  errno = EIO;
  return -1;
}

/* A call at which the process may stop. */
#define STOPS(call, is_meant, ...) \
  NEXT(call); \
  if (is_meant) return stopped(); \
  return next(__VA_ARGS__)

static typeof(pwrite64) *pwrite_of_c(void) {
  NEXT(pwrite64);
  return next;
}

static int stop_in(int fd, const void *from, size_t size, off_t at) {
  if (getenv("STOP_TORN") && pwrite_of_c()(fd, from, size / 2, at) < 0) abort();
  return stopped();
}

ssize_t pwrite64(int fd, const void *from, size_t size, off_t at) {
  if (is_stop(fd)) return stop_in(fd, from, size, at);
  return pwrite_of_c()(fd, from, size, at);
}

ssize_t pwrite(int fd, const void *from, size_t size, off_t at) { return pwrite64(fd, from, size, at); }

ssize_t write(int fd, const void *from, size_t size) {
  NEXT(write);
  if (is_stop(fd)) return stop_in(fd, from, size, lseek(fd, 0, SEEK_CUR));
  return next(fd, from, size);
}

static ssize_t read_at(int fd, void *to, size_t size, off_t at) {
  NEXT(pread64);
  return next(fd, to, size, at);
}

ssize_t pread64(int fd, void *to, size_t size, off_t at) { return is_unread(fd) ? stopped() : read_at(fd, to, size, at); }

ssize_t pread(int fd, void *to, size_t size, off_t at) { return pread64(fd, to, size, at); }

ssize_t read(int fd, void *to, size_t size) { STOPS(read, is_unread(fd), fd, to, size); }

int ftruncate64(int fd, off_t size) { STOPS(ftruncate64, is_stop(fd), fd, size); }

int ftruncate(int fd, off_t size) { return ftruncate64(fd, size); }

int unlink(const char *path) { STOPS(unlink, is_within(path) && is_due(), path); }

/* Copies a file as it is synced. */
static void keep(int fd) {
  char path[MOST], block[65536], to[MOST + 16];
  if (!path_of(fd, path)) return;
  snprintf(to, sizeof to, "%s.synced", path);
  int from = open(path, O_RDONLY), out = open(to, O_CREAT | O_TRUNC | O_WRONLY, 0600);
  off_t at = 0;
  for (ssize_t size; (size = read_at(from, block, sizeof block, at)) > 0; at += size)
    if (pwrite_of_c()(out, block, size, at) != size) abort();
  close(from);
  close(out);
}

/* Notes that the names stay of the file STOP_IN and of its log, where this is their folder. */
static void keep_names(int fd) {
  char path[MOST], name[MOST + 8], noted[MOST + 16];
  const char *in = getenv("STOP_IN"), *ends[] = {"", "-wal"};
  path_of(fd, path);
  size_t size = strlen(path);
  if (!in || strncmp(path, in, size) || in[size] != '/' || strchr(in + size + 1, '/')) return;
  for (int at = 0; at < 2; at++) {
    snprintf(name, sizeof name, "%s%s", in, ends[at]);
    snprintf(noted, sizeof noted, "%s.named", name);
    if (!access(name, F_OK)) close(open(noted, O_CREAT | O_WRONLY, 0600));
  }
}

static int synced(int fd, int (*next)(int)) {
  char path[MOST];
  const char *lost = getenv("LOST");
  if (is_stop(fd)) return stopped();
  if (lost && path_of(fd, path) && !strcmp(path, lost)) return 0;
  int done = next(fd);
  keep(fd);
  keep_names(fd);
  return done;
}

int fsync(int fd) { NEXT(fsync); return synced(fd, next); }

int fdatasync(int fd) { NEXT(fdatasync); return synced(fd, next); }
