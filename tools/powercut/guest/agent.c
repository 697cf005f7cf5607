/* The guest's only process, PID 1 of a small virtual machine. It takes the host's orders over a serial port: to mount, to run programs,
 * to read and write files, and to run a server under a load (load.c). Each order is a line of fields with tabs between them; each answer is
 * a line `R STATUS PRINTED ERRORS` with two counts of bytes, and those bytes. */
#define _GNU_SOURCE
#include "guest.h"
#include <errno.h>
#include <fcntl.h>
#include <net/if.h>
#include <signal.h>
#include <stdint.h>
#include <stdio.h>
#include <stdlib.h>
#include <string.h>
#include <sys/ioctl.h>
#include <sys/mount.h>
#include <sys/reboot.h>
#include <sys/stat.h>
#include <sys/syscall.h>
#include <termios.h>
#include <time.h>
#include <unistd.h>

#define MOST_FIELDS 40
#define BLOCK 4096
static int port = -1;

static void send_bytes(const char *data, size_t size) {
  while (size) {
    ssize_t sent = write(port, data, size);
    if (sent < 0 && errno != EINTR && errno != EAGAIN) return;
    if (sent > 0) { data += sent; size -= (size_t)sent; }
  }
}

void answer(int status, const struct text *printed, const struct text *errors) {
  char head[80];
  int size = snprintf(head, sizeof head, "R %d %zu %zu\n", status, printed->size, errors->size);
  send_bytes(head, (size_t)size);
  send_bytes(printed->data, printed->size);
  send_bytes(errors->data, errors->size);
}

static void answer_status(int status) { answer(status, &(struct text){0}, &(struct text){0}); }
static void answer_errno(int result) { answer_status(result ? errno : 0); }

/* Unmounts, once whoever used the file system a moment ago is through. */
static int unmount(void) {
  int failed = -1;
  for (int tries = 0; tries < 50 && (failed = umount2("/mnt", 0)); tries++) usleep(20000);
  return failed;
}

/* btrfs keeps the devices that it has seen: it has to forget them, since the next image is of the same file system. */
static void forget_devices(void) {
  struct { int64_t file; char name[4088]; } all = {0};
  int control = open("/dev/btrfs-control", O_RDWR | O_CLOEXEC);
  if (control < 0) return;
  ioctl(control, _IOC(_IOC_WRITE, 0x94, 5, 4096), &all);
  close(control);
}

/* ---- the orders ---- */

static void order_mount(char **fields) { answer_errno(mount(fields[1], "/mnt", fields[2], 0, fields[3])); }
static void order_unmount(char **fields) { (void)fields; answer_errno(unmount()); forget_devices(); }
static void order_marker(char **fields) { answer_status(open_marker(fields[1])); }
static void order_mkdir(char **fields) { answer_errno(mkdir(fields[1], 0755)); }
static void order_sync(char **fields) { (void)fields; sync(); answer_status(0); }
static void order_sleep(char **fields) { usleep((useconds_t)atoi(fields[1]) * 1000); answer_status(0); }
static void order_set_variable(char **fields) { answer_errno(setenv(fields[1], fields[2], 1)); }

/* mark TEXT, with | for the end of a line. */
static void order_mark(char **fields) {
  char text[4096];
  snprintf(text, sizeof text, "%s\n", fields[1]);
  for (char *at = text; *at; at++) if (*at == '|') *at = '\n';
  answer_status(mark(text));
}

/* set FILE TEXT: writes into a file that is there. */
static void order_set(char **fields) {
  int file = open(fields[1], O_WRONLY | O_CLOEXEC);
  answer_errno(file < 0 || write(file, fields[2], strlen(fields[2])) < 0);
  if (file >= 0) close(file);
}

/* put FILE SIZE, and after the line that many bytes. */
static void order_put(char **fields) {
  char bytes[65536];
  int file = open(fields[1], O_WRONLY | O_CREAT | O_TRUNC | O_CLOEXEC, 0600), failed = file < 0;
  for (size_t left = strtoul(fields[2], NULL, 10); left;) {
    ssize_t got = read(port, bytes, left < sizeof bytes ? left : sizeof bytes);
    if (got <= 0) { usleep(2000); continue; }
    failed |= write(file, bytes, (size_t)got) != got;
    left -= (size_t)got;
  }
  failed |= fsync(file) != 0;
  if (file >= 0) close(file);
  answer_status(failed);
}

static void order_get(char **fields) {
  struct text bytes = {0};
  int file = open(fields[1], O_RDONLY | O_CLOEXEC), failed = file < 0 ? errno : 0;
  append_file(&bytes, file);
  if (file >= 0) close(file);
  answer(failed, &bytes, &(struct text){0});
  free(bytes.data);
}

/* Appends this many bytes to a file and syncs it, always at the same time of the system's clock. Returns 0 if it succeeds. */
static int append_and_sync(int file, size_t size) {
  static const char bytes[BLOCK];
  struct timespec same = {1000000000, 0};
  return clock_settime(CLOCK_REALTIME, &same) || write(file, bytes, size) != (ssize_t)size || fsync(file);
}

/* grow FILE BLOCKS: appends blocks to an empty file, each in two parts, and then marks the length. */
static void order_grow(char **fields) {
  int file = open(fields[1], O_WRONLY | O_CLOEXEC), failed = file < 0;
  for (int block = 1; !failed && block <= atoi(fields[2]); block++) {
    char text[40];
    snprintf(text, sizeof text, "least %d\n", block * BLOCK);
    failed = append_and_sync(file, BLOCK - 100) || append_and_sync(file, 100) || mark(text);
  }
  if (file >= 0) close(file);
  answer_status(failed);
}

/* run SECONDS PROGRAM ARGUMENT.. */
static void order_run(char **fields) {
  struct text printed = {0}, errors = {0};
  int status = run(fields + 2, atoi(fields[1]), &printed, &errors);
  answer(status, &printed, &errors);
  free(printed.data);
  free(errors.data);
}

/* Appends what `check` or `show` says of a store: a line `NAME STATUS BYTES`, and those bytes. The status. */
static int append_said(struct text *said, char *program, char *name, char *store) {
  struct text printed = {0}, errors = {0};
  char head[80], *command[] = {program, name, store, NULL};
  int status = run(command, 120, &printed, &errors);
  append(said, head, (size_t)snprintf(head, sizeof head, "%s %d %zu\n", name, status, printed.size + errors.size));
  append(said, printed.data, printed.size);
  append(said, errors.data, errors.size);
  free(printed.data);
  free(errors.data);
  return status;
}

/* judge DEVICE TYPE OPTIONS PROGRAM STORE: mounts, reads the store, has PROGRAM look at it unless that is empty, and unmounts. */
static void order_judge(char **fields) {
  struct text said = {0}, bytes = {0};
  if (mount(fields[1], "/mnt", fields[2], 0, fields[3])) { answer_text(1, "mount %d", errno); forget_devices(); return; }
  int file = open(fields[5], O_RDONLY | O_CLOEXEC);
  if (file < 0) {
    char head[80];
    append(&said, head, (size_t)snprintf(head, sizeof head, errno == ENOENT ? "nofile %d\n" : "unreadable %d\n", errno));
  } else {
    errno = 0;
    append_file(&bytes, file);
    if (errno) append(&said, "unreadable\n", 11);
    close(file);
    if (!errno && *fields[4] && !append_said(&said, fields[4], "check", fields[5])) append_said(&said, fields[4], "show", fields[5]);
  }
  if (unmount()) answer_text(2, "umount %d", errno); else answer(0, &said, &bytes);
  free(said.data);
  free(bytes.data);
  forget_devices();
}

static void order_off(char **fields) { (void)fields; answer_status(0); reboot(RB_POWER_OFF); }

static const struct { const char *name; void (*carry_out)(char **fields); } orders[] = {
  {"mount", order_mount}, {"unmount", order_unmount}, {"marker", order_marker}, {"mark", order_mark}, {"mkdir", order_mkdir},
  {"sync", order_sync}, {"sleep", order_sleep}, {"set", order_set}, {"put", order_put}, {"get", order_get}, {"run", order_run},
  {"grow", order_grow},
  {"variable", order_set_variable}, {"judge", order_judge}, {"load", run_load}, {"off", order_off},
};

static void carry_out(char *line) {
  char *fields[MOST_FIELDS] = {NULL};
  for (int count = 0; line && count < MOST_FIELDS - 1; count++) {
    fields[count] = line;
    if ((line = strchr(line, '\t'))) *line++ = 0;
  }
  for (size_t at = 0; at < sizeof orders / sizeof *orders; at++)
    if (!strcmp(fields[0], orders[at].name)) { orders[at].carry_out(fields); return; }
  answer_text(99, "no such order: %s", fields[0]);
}

/* ---- the start of the machine ---- */

static void mount_kernel(void) {
  const char *folders[] = {"/proc", "/sys", "/dev", "/tmp", "/mnt"};
  for (size_t at = 0; at < sizeof folders / sizeof *folders; at++) mkdir(folders[at], 0755);
  mount("proc", "/proc", "proc", 0, NULL);
  mount("sys", "/sys", "sysfs", 0, NULL);
  mount("dev", "/dev", "devtmpfs", 0, NULL);
  int console = open("/dev/console", O_RDWR);
  for (int stream = 0; console >= 0 && stream < 3; stream++) dup2(console, stream);
}

static void load_modules(void) {
  FILE *list = fopen("/modules", "r");
  char name[300];
  while (list && fgets(name, sizeof name, list)) {
    name[strcspn(name, "\n")] = 0;
    int file = open(name, O_RDONLY | O_CLOEXEC);
    if (syscall(SYS_finit_module, file, "", 0) && errno != EEXIST) printf("module %s: %s\n", name, strerror(errno));
    close(file);
  }
}

static void raise_loopback(void) {
  struct ifreq interface = {.ifr_name = "lo"};
  int any = socket(AF_INET, SOCK_DGRAM, 0);
  ioctl(any, SIOCGIFFLAGS, &interface);
  interface.ifr_flags |= IFF_UP | IFF_RUNNING;
  ioctl(any, SIOCSIFFLAGS, &interface);
  close(any);
}

/* The serial port: a virtual one of QEMU, or a line of a kernel that runs as a process. */
static int open_port(void) {
  int is_process = access("/proc/exitcode", F_OK) == 0, found = -1;
  for (int tries = 0; !is_process && tries < 500 && found < 0; tries++) {
    char name[] = "/dev/vport0p1";
    for (name[10] = '0'; name[10] < '3' && found < 0; name[10]++) found = open(name, O_RDWR | O_CLOEXEC);
    if (found < 0) usleep(20000);
  }
  if (found >= 0) return found;
  struct termios line;
  found = open("/dev/ttyS0", O_RDWR | O_CLOEXEC | O_NOCTTY);
  tcgetattr(found, &line);
  cfmakeraw(&line);
  tcsetattr(found, TCSANOW, &line);
  return found;
}

int main(void) {
  static char line[65536];
  mount_kernel();
  signal(SIGPIPE, SIG_IGN);
  load_modules();
  raise_loopback();
  if ((port = open_port()) < 0) { printf("no port\n"); reboot(RB_POWER_OFF); }
  send_bytes("agent\n", 6);
  for (size_t size = 0;;) {
    if (read(port, line + size, 1) <= 0) { usleep(2000); continue; }
    if (line[size] != '\n' && size < sizeof line - 1) { size++; continue; }
    line[size] = 0;
    carry_out(line);
    size = 0;
  }
}
