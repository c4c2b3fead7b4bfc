// Makes reads and writes of one program fail, for tests/faults. Preloaded; FAULT_EXE names the program's file, so that
// the shell around it is left alone. A call that is not to fail is the C library's.
#define _GNU_SOURCE
#include <dlfcn.h>
#include <errno.h>
#include <signal.h>
#include <stdio.h>
#include <stdlib.h>
#include <string.h>
#include <unistd.h>

static size_t octets_read, octets_written;
static int interrupted;

// The number in a variable, or -1 where the variable is missing or this is another program.
static long setting(const char *name) {
  char exe[4096];
  const char *wanted = getenv("FAULT_EXE"), *value = getenv(name);
  ssize_t length = readlink("/proc/self/exe", exe, sizeof exe - 1);
  if (wanted == NULL || value == NULL || length < 0) return -1;
  exe[length] = 0;
  return strcmp(exe, wanted) == 0 ? atol(value) : -1;
}

// At most this many octets before the limit, and in a piece.
static size_t allowed(size_t count, long limit, size_t done, long piece) {
  if (limit >= 0 && count > (size_t)limit - done) count = (size_t)limit - done;
  if (piece > 0 && count > (size_t)piece) count = (size_t)piece;
  return count;
}

static void kill_at(const char *name, size_t done) {
  long limit = setting(name);
  if (limit >= 0 && done >= (size_t)limit) raise((int)setting("FAULT_SIGNAL"));
}

ssize_t read(int file, void *buffer, size_t count) {
  ssize_t (*next)(int, void *, size_t) = (ssize_t(*)(int, void *, size_t))dlsym(RTLD_NEXT, "read");
  long limit = setting("FAULT_READ_AFTER"), interrupt = setting("FAULT_INTERRUPT_AFTER");
  if (file != 0) return next(file, buffer, count);
  kill_at("FAULT_KILL_READ_AFTER", octets_read);
  if (interrupt >= 0 && octets_read >= (size_t)interrupt && !interrupted) {
    interrupted = 1;
    errno = EINTR;
    return -1;
  }
  if (limit >= 0 && octets_read >= (size_t)limit) {
    errno = EIO;
    return -1;
  }
  ssize_t got = next(file, buffer, allowed(count, limit, octets_read, setting("FAULT_PIECE")));
  if (got > 0) octets_read += (size_t)got;
  return got;
}

ssize_t write(int file, const void *buffer, size_t count) {
  ssize_t (*next)(int, const void *, size_t) = (ssize_t(*)(int, const void *, size_t))dlsym(RTLD_NEXT, "write");
  long limit = setting("FAULT_WRITE_AFTER");
  if (file != 1) return next(file, buffer, count);
  kill_at("FAULT_KILL_WRITE_AFTER", octets_written);
  if (limit >= 0 && octets_written >= (size_t)limit) {
    errno = ENOSPC;
    return -1;
  }
  ssize_t put = next(file, buffer, allowed(count, limit, octets_written, setting("FAULT_PIECE")));
  if (put > 0) octets_written += (size_t)put;
  return put;
}

// An output that turns out to be full when it is closed.
int fclose(FILE *stream) {
  int (*next)(FILE *) = (int (*)(FILE *))dlsym(RTLD_NEXT, "fclose");
  int output = stream == stdout && setting("FAULT_CLOSE") >= 0;
  int answer = next(stream);
  if (!output) return answer;
  errno = ENOSPC;
  return EOF;
}
