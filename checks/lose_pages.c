/* A disk that forgets: checks/folder.py compiles this library and preloads it into the program.

   At a sync that fails the system drops what it could not write: the pages count as clean, the file still reads as if all were
   well, and the next sync answers Ok without writing them. Here each log file has two files beside it in the folder $LOSE_DIR:

     NAME.dirty    the ranges that were written since the last sync, whether that failed or not: pairs of offset and length
     NAME.durable  what a power cut leaves of the file

   A sync that is good copies the dirty ranges, as the file has them then, to NAME.durable. Once a piece was written that has the
   text $LOSE_TEXT in it, each sync of the process fails, and its ranges are forgotten. */
#define _GNU_SOURCE
#include <dlfcn.h>
#include <errno.h>
#include <fcntl.h>
#include <pthread.h>
#include <stdint.h>
#include <stdio.h>
#include <stdlib.h>
#include <string.h>
#include <sys/stat.h>
#include <unistd.h>

#define NAME_LENGTH 20

static pthread_mutex_t turn = PTHREAD_MUTEX_INITIALIZER;
static int fails_now;

struct range {
  uint64_t at, length;
};

/* The path of a file beside this one; 0 where it isn't a log file. */
static int beside(int fd, const char *ending, char *path, size_t room) {
  char link[64], target[4096];
  snprintf(link, sizeof link, "/proc/self/fd/%d", fd);
  ssize_t length = readlink(link, target, sizeof target - 1);
  const char *folder = getenv("LOSE_DIR");
  if (length <= NAME_LENGTH || folder == NULL)
    return 0;
  target[length] = 0;
  const char *name = target + length - NAME_LENGTH;
  if (name[-1] != '/' || strspn(name, "0123456789") != NAME_LENGTH)
    return 0;
  snprintf(path, room, "%s/%s.%s", folder, name, ending);
  return 1;
}

static ssize_t real_pwrite(int fd, const void *bytes, size_t length, off_t at) {
  ssize_t (*real)(int, const void *, size_t, off_t) = dlsym(RTLD_NEXT, "pwrite64");
  return real(fd, bytes, length, at);
}

static void give_up(const char *what) {
  perror(what);
  abort();
}

static void note_range(const char *path, uint64_t at, uint64_t length) {
  struct range range = {at, length};
  int file = open(path, O_WRONLY | O_CREAT | O_APPEND, 0644);
  if (file < 0 || write(file, &range, sizeof range) != sizeof range)
    give_up(path);
  close(file);
}

static ssize_t write_piece(int fd, const void *bytes, size_t length, off_t at) {
  char path[4200];
  ssize_t done = real_pwrite(fd, bytes, length, at);
  if (done > 0 && beside(fd, "dirty", path, sizeof path)) {
    const char *text = getenv("LOSE_TEXT");
    pthread_mutex_lock(&turn);
    note_range(path, at, done);
    if (text != NULL && memmem(bytes, length, text, strlen(text)) != NULL)
      fails_now = 1;
    pthread_mutex_unlock(&turn);
  }
  return done;
}

ssize_t pwrite(int fd, const void *bytes, size_t length, off_t at) {
  return write_piece(fd, bytes, length, at);
}

ssize_t pwrite64(int fd, const void *bytes, size_t length, off_t at) {
  return write_piece(fd, bytes, length, at);
}

static void copy_range(int fd, int durable, struct range range) {
  char *bytes = malloc(range.length);
  if (bytes == NULL)
    give_up("memory");
  ssize_t length = pread(fd, bytes, range.length, range.at);
  if (length > 0 && real_pwrite(durable, bytes, length, range.at) != length)
    give_up("durable");
  free(bytes);
}

/* Brings what is dirty to the disk. */
static void write_back(int fd, const char *dirty_path) {
  char path[4200];
  struct range range;
  beside(fd, "durable", path, sizeof path);
  int durable = open(path, O_WRONLY | O_CREAT, 0644);
  if (durable < 0)
    give_up(path);
  FILE *dirty = fopen(dirty_path, "rb");
  while (dirty != NULL && fread(&range, sizeof range, 1, dirty) == 1)
    copy_range(fd, durable, range);
  if (dirty != NULL)
    fclose(dirty);
  close(durable);
}

static int sync_file(int fd, const char *call) {
  char path[4200];
  int (*real)(int) = dlsym(RTLD_NEXT, call);
  if (!beside(fd, "dirty", path, sizeof path))
    return real(fd);
  int answer = 0;
  pthread_mutex_lock(&turn);
  if (fails_now) {
    answer = -1;
  } else {
    write_back(fd, path);
  }
  unlink(path);
  pthread_mutex_unlock(&turn);
  if (answer != 0)
    errno = EIO;
  return answer;
}

int fdatasync(int fd) { return sync_file(fd, "fdatasync"); }

int fsync(int fd) { return sync_file(fd, "fsync"); }

static int cut_file(int fd, off_t length, const char *call) {
  char path[4200];
  struct stat durable;
  int (*real)(int, off_t) = dlsym(RTLD_NEXT, call);
  int answer = real(fd, length);
  if (answer == 0 && beside(fd, "durable", path, sizeof path) && stat(path, &durable) == 0 && durable.st_size > length
      && truncate(path, length) != 0)
    give_up(path);
  return answer;
}

int ftruncate(int fd, off_t length) { return cut_file(fd, length, "ftruncate"); }

int ftruncate64(int fd, off_t length) { return cut_file(fd, length, "ftruncate64"); }
