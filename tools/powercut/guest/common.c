/* Texts, programs and markers. */
#define _GNU_SOURCE
#include "guest.h"
#include <errno.h>
#include <fcntl.h>
#include <poll.h>
#include <signal.h>
#include <stdarg.h>
#include <stdio.h>
#include <stdlib.h>
#include <string.h>
#include <sys/wait.h>
#include <time.h>
#include <unistd.h>

#define MARKER_ROOM 65536
static int marker = -1;
static unsigned long long state = 1;

double now(void) {
  struct timespec time;
  clock_gettime(CLOCK_MONOTONIC, &time);
  return (double)time.tv_sec + (double)time.tv_nsec / 1e9;
}

void seed_random(unsigned long long seed) { state = seed ? seed : 1; }

unsigned random_below(unsigned bound) { /* xorshift */
  state ^= state << 13;
  state ^= state >> 7;
  state ^= state << 17;
  return (unsigned)((state >> 16) % bound);
}

void append(struct text *text, const char *data, size_t size) {
  if (text->size + size + 1 > text->room) {
    text->room = (text->size + size + 1) * 2;
    text->data = realloc(text->data, text->room);
    if (!text->data) abort();
  }
  if (size) memcpy(text->data + text->size, data, size);
  text->size += size;
  text->data[text->size] = 0;
}

void append_file(struct text *text, int file) {
  char bytes[65536];
  for (ssize_t got; file >= 0 && (got = read(file, bytes, sizeof bytes)) > 0;) append(text, bytes, (size_t)got);
}

void answer_text(int status, const char *format, ...) {
  char said[4096];
  va_list values;
  va_start(values, format);
  int size = vsnprintf(said, sizeof said, format, values);
  va_end(values);
  answer(status, &(struct text){said, (size_t)size < sizeof said ? (size_t)size : sizeof said - 1, 0}, &(struct text){0});
}

int open_marker(const char *device) {
  marker = open(device, O_RDWR | O_DIRECT | O_CLOEXEC);
  return marker < 0 ? errno : 0;
}

int mark(const char *text) {
  static char *block;
  if (marker < 0) return 0;
  if (!block && posix_memalign((void **)&block, 4096, MARKER_ROOM)) return ENOMEM;
  size_t size = strlen(text) + 1, whole = (size + 511) / 512 * 512;
  if (whole > MARKER_ROOM) return EFBIG;
  memset(block, 0, whole);
  memcpy(block, text, size);
  return pwrite(marker, block, whole, 0) == (ssize_t)whole ? 0 : errno;
}

void use_streams(int input, int output, int errors) {
  dup2(input, 0);
  dup2(output, 1);
  dup2(errors, 2);
  for (int file = 3; file < 64; file++) close(file);
}

static pid_t start(char **command, int output[2], int errors[2]) {
  if (pipe(output) || pipe(errors)) return -1;
  pid_t child = fork();
  if (!child) {
    use_streams(open("/dev/null", O_RDONLY), output[1], errors[1]);
    execv(command[0], command);
    _exit(127);
  }
  close(output[1]);
  close(errors[1]);
  return child;
}

int run(char **command, int seconds, struct text *printed, struct text *errors) {
  int output[2], other[2], is_late = 0, status = 0;
  pid_t child = start(command, output, other);
  if (child < 0) return 250;
  struct pollfd from[2] = {{output[0], POLLIN, 0}, {other[0], POLLIN, 0}};
  double end = now() + seconds;
  for (int left = 2; left;) {
    int rest = (int)((end - now()) * 1000);
    if (rest <= 0) { is_late = 1; kill(child, SIGKILL); end = now() + 5; rest = 1000; }
    poll(from, 2, rest);
    for (int each = 0; each < 2; each++) {
      char bytes[65536];
      if (from[each].fd < 0 || !from[each].revents) continue;
      ssize_t got = read(from[each].fd, bytes, sizeof bytes);
      if (got > 0) { append(each ? errors : printed, bytes, (size_t)got); continue; }
      close(from[each].fd);
      from[each].fd = -1;
      left--;
    }
  }
  waitpid(child, &status, 0);
  return is_late ? 251 : WIFEXITED(status) ? WEXITSTATUS(status) : 128 + WTERMSIG(status);
}
