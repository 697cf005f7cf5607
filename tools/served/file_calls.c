/* usage: file_calls COUNTS COMMAND..
 *
 * Runs a command, and ends its process group right in front of the Nth system call by which one of its processes changes
 * files, counted over all of them. The file COUNTS holds N (0 for never) and the count so far. In front of each call that
 * removes or renames FILE, FILE.next is renamed to FILE if there is one, like another program that replaces the file at
 * this moment. A filter of the kernel (seccomp) stops each process at these calls alone, for a process that traces them
 * (ptrace); so it sees what is called past the C library, too. The command keeps the number of the process that was started. */
#define _GNU_SOURCE
#include <errno.h>
#include <fcntl.h>
#include <limits.h>
#include <linux/filter.h>
#include <linux/seccomp.h>
#include <signal.h>
#include <stddef.h>
#include <stdint.h>
#include <stdio.h>
#include <stdlib.h>
#include <sys/prctl.h>
#include <sys/ptrace.h>
#include <sys/stat.h>
#include <sys/syscall.h>
#include <sys/user.h>
#include <sys/wait.h>
#include <unistd.h>

static const unsigned changing[] = {
  SYS_write, SYS_writev, SYS_pwrite64, SYS_pwritev, SYS_sendfile, SYS_copy_file_range, SYS_ftruncate, SYS_truncate, SYS_fallocate, SYS_fsync,
  SYS_fdatasync, SYS_sync_file_range, SYS_rename, SYS_renameat, SYS_renameat2, SYS_unlink, SYS_unlinkat, SYS_link, SYS_linkat, SYS_symlink,
  SYS_symlinkat, SYS_mkdir, SYS_mkdirat, SYS_rmdir, SYS_open, SYS_openat, SYS_creat,
};
enum { CALLS = sizeof changing / sizeof changing[0] };

static void need(int holds, const char *what) {
  if (!holds) { perror(what); exit(125); }
}

static void filter_calls(void) {
  struct sock_filter rules[CALLS + 3] = {BPF_STMT(BPF_LD | BPF_W | BPF_ABS, offsetof(struct seccomp_data, nr))};
  for (unsigned n = 0; n < CALLS; n++)
    rules[1 + n] = (struct sock_filter)BPF_JUMP(BPF_JMP | BPF_JEQ | BPF_K, changing[n], CALLS - n, 0);
  rules[CALLS + 1] = (struct sock_filter)BPF_STMT(BPF_RET | BPF_K, SECCOMP_RET_ALLOW);
  rules[CALLS + 2] = (struct sock_filter)BPF_STMT(BPF_RET | BPF_K, SECCOMP_RET_TRACE);
  need(prctl(PR_SET_NO_NEW_PRIVS, 1, 0, 0, 0) == 0, "no new privileges");
  need(prctl(PR_SET_SECCOMP, SECCOMP_MODE_FILTER, &(struct sock_fprog){CALLS + 3, rules}) == 0, "seccomp");
}

static int changes_files(pid_t process) { /* a write to what is no file does not, nor does an open that makes none */
  struct user_regs_struct call;
  struct stat info;
  char path[64];
  if (ptrace(PTRACE_GETREGS, process, 0, &call) != 0) return 0;
  if (call.orig_rax == SYS_open) return (call.rsi & (O_CREAT | O_TRUNC)) != 0;
  if (call.orig_rax == SYS_openat) return (call.rdx & (O_CREAT | O_TRUNC)) != 0;
  if (call.orig_rax != SYS_write && call.orig_rax != SYS_writev) return 1;
  snprintf(path, sizeof path, "/proc/%d/fd/%d", (int)process, (int)call.rdi);
  return stat(path, &info) == 0 && S_ISREG(info.st_mode);
}

static void read_text(pid_t process, uint64_t at, char *text, size_t room) { /* of a process, as far as there is room */
  char path[64];
  snprintf(path, sizeof path, "/proc/%d/mem", (int)process);
  int memory = open(path, O_RDONLY | O_CLOEXEC);
  ssize_t length = memory < 0 ? 0 : pread(memory, text, room - 1, (off_t)at);
  text[length > 0 ? length : 0] = '\0';
  close(memory);
}

static void replace_what_it_takes_away(pid_t process) {
  struct user_regs_struct call;
  char name[PATH_MAX], folder[64] = "", path[PATH_MAX + 64], next[PATH_MAX + 80];
  if (ptrace(PTRACE_GETREGS, process, 0, &call) != 0) return;
  int is_at = call.orig_rax == SYS_renameat || call.orig_rax == SYS_renameat2 || call.orig_rax == SYS_unlinkat;
  if (!is_at && call.orig_rax != SYS_rename && call.orig_rax != SYS_unlink) return;
  read_text(process, is_at ? call.rsi : call.rdi, name, sizeof name);
  if (name[0] != '/' && is_at && (int)call.rdi != AT_FDCWD) snprintf(folder, sizeof folder, "/proc/%d/fd/%d/", (int)process, (int)call.rdi);
  else if (name[0] != '/') snprintf(folder, sizeof folder, "/proc/%d/cwd/", (int)process);
  snprintf(path, sizeof path, "%s%s", folder, name);
  snprintf(next, sizeof next, "%s.next", path);
  rename(next, path);
}

static int is_the_last(int counts) { /* counts one call more */
  uint64_t at[2] = {0, 0};
  need(pread(counts, at, sizeof at, 0) == sizeof at, "counts");
  at[1]++;
  need(pwrite(counts, &at[1], sizeof at[1], sizeof at[0]) == sizeof at[1], "counts");
  return at[1] == at[0];
}

static void follow(int counts, pid_t group) { /* until none of the processes is left */
  int status;
  for (pid_t process; (process = waitpid(-1, &status, __WALL)) > 0 || errno == EINTR;) {
    if (process <= 0 || !WIFSTOPPED(status)) continue;
    int signal = WSTOPSIG(status), event = status >> 16;
    if (event == PTRACE_EVENT_SECCOMP) replace_what_it_takes_away(process);
    if (event == PTRACE_EVENT_SECCOMP && changes_files(process) && is_the_last(counts)) kill(-group, SIGKILL);
    else if (event == PTRACE_EVENT_STOP && signal != SIGTRAP) ptrace(PTRACE_LISTEN, process, 0, 0); /* the group is stopped */
    else ptrace(PTRACE_CONT, process, 0, event ? 0 : signal);
  }
}

static void trace(pid_t process, int ready, int counts) { /* in a process of its own, which nobody waits for */
  long options = PTRACE_O_EXITKILL | PTRACE_O_TRACESECCOMP | PTRACE_O_TRACECLONE | PTRACE_O_TRACEFORK | PTRACE_O_TRACEVFORK;
  if (fork() != 0) _exit(0);
  setsid();
  need(ptrace(PTRACE_SEIZE, process, 0, options) == 0 && write(ready, "", 1) == 1, "ptrace");
  close(ready);
  follow(counts, process);
  _exit(0);
}

int main(int count, char **arguments) {
  int ready[2], counts = count > 2 ? open(arguments[1], O_RDWR | O_CLOEXEC) : -1;
  char byte;
  need(counts >= 0 && pipe2(ready, O_CLOEXEC) == 0, "usage: file_calls COUNTS COMMAND..");
  prctl(PR_SET_PTRACER, PR_SET_PTRACER_ANY, 0, 0, 0);
  pid_t own = getpid(), tracer = fork();
  need(tracer >= 0, "fork");
  if (tracer == 0) trace(own, ready[1], counts);
  close(ready[1]);
  waitpid(tracer, NULL, 0);
  if (read(ready[0], &byte, 1) != 1) return 125; /* no ptrace here */
  filter_calls();
  execvp(arguments[2], arguments + 2);
  perror(arguments[2]);
  return 127;
}
