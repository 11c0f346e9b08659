/* A clock that a check sets: checks/clocked.py compiles this library and preloads it into the program.

   Each reading of the real-time clock gives the milliseconds since 1970 that the file $SET_CLOCK has then, in decimal. So the clock
   stands still until the file is replaced. The other clocks are the machine's. */
#define _GNU_SOURCE
#include <fcntl.h>
#include <stdio.h>
#include <stdlib.h>
#include <sys/syscall.h>
#include <time.h>
#include <unistd.h>

static long long millis_now(void) {
  char text[32];
  const char *path = getenv("SET_CLOCK");
  int file = path == NULL ? -1 : open(path, O_RDONLY | O_CLOEXEC);
  ssize_t length = file < 0 ? -1 : read(file, text, sizeof text - 1);
  if (length < 0) {
    perror("SET_CLOCK");
    abort();
  }
  close(file);
  text[length] = 0;
  return atoll(text);
}

int clock_gettime(clockid_t clock, struct timespec *time) {
  if (clock == CLOCK_REALTIME) {
    long long now = millis_now();
    time->tv_sec = now / 1000;
    time->tv_nsec = now % 1000 * 1000000;
    return 0;
  }
  return syscall(SYS_clock_gettime, clock, time);
}
