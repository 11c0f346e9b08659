/* A disk whose syncs take long: checks/serve.py compiles this library and preloads it into the program.

   Each fdatasync and fsync takes as many milliseconds more as $SLOW_SYNC has, in decimal. */
#define _GNU_SOURCE
#include <stdlib.h>
#include <sys/syscall.h>
#include <unistd.h>

static int slow(long call, int file) {
  const char *millis = getenv("SLOW_SYNC");
  usleep(millis == NULL ? 0 : (useconds_t)atoi(millis) * 1000);
  return syscall(call, file);
}

int fdatasync(int file) { return slow(SYS_fdatasync, file); }

int fsync(int file) { return slow(SYS_fsync, file); }
