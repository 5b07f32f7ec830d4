/* Makes the call FAULT_AT on an input or an output go wrong. STREAM says on which, FAULT what it does, ONE_BYTE whether
   each call takes one byte. How many bytes the stream had taken before is counted. */
#include "preload.h"
#include <errno.h>
#include <fcntl.h>
#include <netinet/in.h>
#include <netinet/tcp.h>
#include <stdarg.h>
#include <string.h>
#include <sys/socket.h>
#include <sys/stat.h>

static unsigned long taken;
static int is_over;

static int is_named(const char *stream) {
  const char *named = getenv("STREAM");
  return named && !strcmp(named, stream);
}

/* How many of `size` bytes a call may take, or what it returns at once, as -1 less that. */
static ssize_t allowed(size_t size) {
  const char *fault = getenv("FAULT");
  if (++counts()->calls != number("FAULT_AT")) return getenv("ONE_BYTE") && size ? 1 : (ssize_t)size;
  counts()->taken = taken + 1;
  if (!strcmp(fault, "takes one byte")) return size ? 1 : 0;
  if (!strcmp(fault, "takes none")) return -1;
  errno = !strcmp(fault, "fails") ? EIO : !strcmp(fault, "runs out of memory") ? ENOMEM : EINTR;
  return -2;
}

static ssize_t counted(ssize_t count) {
  taken += count > 0 ? count : 0;
  return count;
}

/* A call on a stream: it takes all bytes, or fewer, or goes wrong. */
#define TAKES(call, is_meant, at, bytes, size, ...) \
  NEXT(call); \
  if (!(is_meant) || is_over || !is_named(#call)) return next(at, bytes, size, ##__VA_ARGS__); \
  ssize_t most = allowed(size); \
  return most < 0 ? most + 1 : counted(next(at, bytes, most, ##__VA_ARGS__))

ssize_t read(int at, void *to, size_t size) { TAKES(read, at == 0, at, to, size); }

ssize_t write(int at, const void *from, size_t size) { TAKES(write, at == 1, at, from, size); }

ssize_t recv(int at, void *to, size_t size, int how) { TAKES(recv, 1, at, to, size, how); }

ssize_t send(int at, const void *from, size_t size, int how) { TAKES(send, 1, at, from, size, how); }

int accept4(int at, __SOCKADDR_ARG who, socklen_t *size, int how) {
  NEXT(accept4);
  return is_named("accept") && allowed(0) < 0 ? -1 : next(at, who, size, how);
}

int accept(int at, __SOCKADDR_ARG who, socklen_t *size) { return accept4(at, who, size, 0); }

/* The calls that have a connection send at once, and those that set its time limits. */
int setsockopt(int at, int level, int name, const void *value, socklen_t size) {
  NEXT(setsockopt);
  int sends = level == IPPROTO_TCP && name == TCP_NODELAY && is_named("setsockopt");
  int limits = level == SOL_SOCKET && (name == SO_RCVTIMEO || name == SO_SNDTIMEO) && is_named("limit");
  return !is_over && (sends || limits) && allowed(0) < 0 ? -1 : next(at, level, name, value, size);
}

/* The calls that make a second handle of a connection. */
int fcntl(int at, int how, ...) {
  NEXT(fcntl);
  va_list more;
  va_start(more, how);
  void *value = va_arg(more, void *);
  va_end(more);
  struct stat seen;
  int is_socket = !fstat(at, &seen) && S_ISSOCK(seen.st_mode);
  return is_socket && how == F_DUPFD_CLOEXEC && !is_over && is_named("handle") && allowed(0) < 0 ? -1 : next(at, how, value);
}

/* After the first connection that is shut down nothing goes wrong any more, except for an accept. */
int shutdown(int at, int how) {
  NEXT(shutdown);
  is_over = 1;
  return next(at, how);
}
