/* Takes the place of `nixkeep` in the cases: a process that listens on a socket does the command (stand_in.py).

   That one gets the standard streams that are open. It reads the words, the environment, the folder and the limits in
   /proc, where they stay until it has answered: with an exit status, or that the program itself is to be run. */
#define _GNU_SOURCE
#include <fcntl.h>
#include <stdio.h>
#include <string.h>
#include <sys/socket.h>
#include <sys/un.h>
#include <unistd.h>

/* The answer for a command that the program has to do. */
#define BY_THE_PROGRAM 255

static int say(const char *what) {
  perror(what);
  return 254;
}

/* Collects the standard streams that are open, in their order, and returns how many. `is_open` says which. Those that
   are closed are opened as nothing, so that no other file gets their numbers, and are closed again for a program. */
static int streams(int *found, char *is_open) {
  int count = 0;
  for (int number = 0; number < 3; number++) {
    is_open[number] = fcntl(number, F_GETFD) != -1;
    if (is_open[number])
      found[count++] = number;
    else
      open("/dev/null", O_RDWR | O_CLOEXEC);
  }
  return count;
}

static int sent(int to) {
  char is_open[3];
  int found[3], count = streams(found, is_open);
  union {
    char bytes[CMSG_SPACE(sizeof found)];
    struct cmsghdr head;
  } more = {0};
  struct iovec part = {is_open, sizeof is_open};
  struct msghdr message = {.msg_iov = &part, .msg_iovlen = 1};
  if (count) {
    message.msg_control = more.bytes;
    message.msg_controllen = CMSG_SPACE(count * sizeof *found);
    more.head = (struct cmsghdr){CMSG_LEN(count * sizeof *found), SOL_SOCKET, SCM_RIGHTS};
    memcpy(CMSG_DATA(&more.head), found, count * sizeof *found);
  }
  return sendmsg(to, &message, MSG_NOSIGNAL) == sizeof is_open;
}

int main(int count, char **words) {
  (void)count;
  struct sockaddr_un where = {.sun_family = AF_UNIX, .sun_path = LISTENING};
  /* (above the standard streams, also where some of these are closed) */
  int made = socket(AF_UNIX, SOCK_STREAM | SOCK_CLOEXEC, 0), to = fcntl(made, F_DUPFD_CLOEXEC, 3);
  if (made < 3)
    close(made);
  unsigned char answer;
  if (connect(to, (struct sockaddr *)&where, sizeof where) || !sent(to))
    return say("stand-in: nobody listens");
  if (read(to, &answer, 1) != 1)
    return say("stand-in: no answer");
  if (answer != BY_THE_PROGRAM)
    return answer;
  execv(PROGRAM, words);
  return say("stand-in: " PROGRAM);
}
