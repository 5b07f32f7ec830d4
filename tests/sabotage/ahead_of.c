/* Starts PROGRAM with the library LIBRARY ahead of those that LD_PRELOAD names. It is linked with nothing, so that none
   of these is loaded into it. */
#include <stdio.h>
#include <stdlib.h>
#include <unistd.h>

int main(int count, char **words) {
  (void)count;
  const char *others = getenv("LD_PRELOAD");
  char all[8192];
  snprintf(all, sizeof all, "%s%s%s", LIBRARY, others ? ":" : "", others ? others : "");
  setenv("LD_PRELOAD", all, 1);
  words[0] = PROGRAM;
  execv(PROGRAM, words);
  return 127;
}
