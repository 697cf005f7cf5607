/* Preloaded into a program: it delays each sync, so that a kill often finds unsynced writes. After a write of one byte, which opens the
 * gate of a batch, the delay is long. */
#include <sys/syscall.h>
#include <unistd.h>

#define LATE_MICROSECONDS 5000
#define LATE_AFTER_A_GATE 100000

static __thread size_t last_write;

ssize_t pwrite(int file, const void *bytes, size_t size, off_t place) {
  last_write = size;
  return syscall(SYS_pwrite64, file, bytes, size, place);
}

static void be_late(void) { usleep(last_write == 1 ? LATE_AFTER_A_GATE : LATE_MICROSECONDS); }

int fsync(int file) {
  be_late();
  return (int)syscall(SYS_fsync, file);
}

int fdatasync(int file) {
  be_late();
  return (int)syscall(SYS_fdatasync, file);
}
