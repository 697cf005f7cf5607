"""A library that is loaded before the C library, and changes the results of a few system calls."""

import os
import shutil
import subprocess

SOURCE = r"""
#define _GNU_SOURCE
#include <dlfcn.h>
#include <errno.h>
#include <fcntl.h>
#include <netinet/in.h>
#include <netinet/tcp.h>
#include <pthread.h>
#include <stdarg.h>
#include <stdio.h>
#include <stdlib.h>
#include <string.h>
#include <sys/mman.h>
#include <sys/socket.h>
#include <sys/stat.h>
#include <sys/syscall.h>
#include <sys/time.h>
#include <time.h>
#include <unistd.h>
static long setting(const char *name) { return getenv(name) ? atol(getenv(name)) : 0; }
// Of the calls of one kind the one whose number is set fails, with the error that is set, or else with EIO.
static int fails(const char *number, const char *error, long *calls) {
    if (!setting(number) || __atomic_add_fetch(calls, 1, __ATOMIC_SEQ_CST) != setting(number)) return 0;
    errno = setting(error) ? setting(error) : EIO;
    return 1;
}
// After the first ACCEPT_AFTER clients, each further one comes only after ACCEPT_TIMES calls that fail with ACCEPT_ERROR.
// What goes out to a client is kept by the system up to SEND_BUFFER bytes.
int accept4(int socket, struct sockaddr *address, socklen_t *length, int flags) {
    static long clients, failures;
    if (clients >= setting("ACCEPT_AFTER") && failures < setting("ACCEPT_TIMES")) {
        failures += 1;
        errno = setting("ACCEPT_ERROR");
        return -1;
    }
    int client = syscall(SYS_accept4, socket, address, length, flags);
    if (client >= 0) {
        int most = setting("SEND_BUFFER");
        if (most) setsockopt(client, SOL_SOCKET, SO_SNDBUF, &most, sizeof most);
        clients += 1;
        failures = 0;
    }
    return client;
}
// The clock is ahead by as many seconds as the file CLOCK has at this moment, a number of 8 bytes, and by READ_SECONDS for
// each read of a socket. With STILL it stands still but for that.
static long sockets_read;
int clock_gettime(clockid_t id, struct timespec *time) {
    static long *ahead;
    static struct timespec first;
    if (!ahead && getenv("CLOCK")) {
        int file = syscall(SYS_openat, AT_FDCWD, getenv("CLOCK"), O_RDONLY);
        ahead = mmap(0, sizeof *ahead, PROT_READ, MAP_SHARED, file, 0);
        syscall(SYS_close, file);
    }
    int status = syscall(SYS_clock_gettime, id, time);
    if (id != CLOCK_MONOTONIC || status) return status;
    if (!first.tv_sec) first = *time;
    if (setting("STILL")) *time = first;
    if (ahead) time->tv_sec += *ahead;
    time->tv_sec += setting("READ_SECONDS") * __atomic_load_n(&sockets_read, __ATOMIC_SEQ_CST);
    return 0;
}
// Calls of a device and what goes out are written down in the file CALLS, a line each: what is to be written before it is,
// and a sync once it is over. So what stands before a line was done before what stands after it.
static void note(const char *call, int file, long place, const void *bytes, size_t count) {
    static int calls;
    if (!getenv("CALLS")) return;
    if (!calls) calls = syscall(SYS_openat, AT_FDCWD, getenv("CALLS"), O_WRONLY | O_CREAT | O_APPEND, 0600);
    char *line = malloc(2 * count + 80);
    int length = sprintf(line, "%s %d %ld ", call, file, place);
    for (size_t at = 0; at < count; at++) length += sprintf(line + length, "%02x", ((const unsigned char *)bytes)[at]);
    line[length++] = '\n';
    syscall(SYS_write, calls, line, length);
    free(line);
}
// At most PIECE bytes are written, sent or read at once.
static size_t piece(size_t count) {
    size_t most = setting("PIECE");
    return most && most < count ? most : count;
}
// Call WRITE_FAILS that writes to a file fails, call READ_FAILS that reads of one, and call LENGTH_FAILS that asks for the
// length of one; call READ_ENDS that reads finds no byte.
ssize_t pwrite64(int file, const void *bytes, size_t count, off_t place) {
    static long writes;
    if (fails("WRITE_FAILS", "ERROR", &writes)) return -1;
    note("write", file, place, bytes, piece(count));
    return syscall(SYS_pwrite64, file, bytes, piece(count), place);
}
ssize_t pwrite(int file, const void *bytes, size_t count, off_t place) { return pwrite64(file, bytes, count, place); }
ssize_t pread64(int file, void *buffer, size_t count, off_t place) {
    static long reads, ends;
    if (fails("READ_FAILS", "ERROR", &reads)) return -1;
    if (fails("READ_ENDS", "ERROR", &ends)) return 0;
    return syscall(SYS_pread64, file, buffer, piece(count), place);
}
ssize_t pread(int file, void *buffer, size_t count, off_t place) { return pread64(file, buffer, count, place); }
int statx(int file, const char *path, int flags, unsigned int mask, struct statx *found) {
    static long lengths;
    if (!*path && fails("LENGTH_FAILS", "ERROR", &lengths)) return -1;
    return syscall(SYS_statx, file, path, flags, mask, found);
}
// No lock can be had.
int flock(int file, int how) {
    static long locks;
    return fails("LOCK_FAILS", "ERROR", &locks) ? -1 : syscall(SYS_flock, file, how);
}
// A socket can't be listened to, or its address can't be read.
int listen(int socket, int most) {
    static long listens;
    return fails("LISTEN_FAILS", "ERROR", &listens) ? -1 : syscall(SYS_listen, socket, most);
}
int getsockname(int socket, struct sockaddr *address, socklen_t *length) {
    static long names;
    return fails("NAME_FAILS", "ERROR", &names) ? -1 : syscall(SYS_getsockname, socket, address, length);
}
// A sync takes SYNC_MILLIS longer, or with SYNCS_LEFT_OUT no time at all. No sync ends while the file HELD exists. Sync number
// SYNC_FAILS fails, and no other. What was synced is written down by its path.
static int synced(int number, int file) {
    static long syncs;
    char name[40], path[4096];
    if (setting("SYNC_MILLIS")) usleep(1000 * setting("SYNC_MILLIS"));
    while (getenv("HELD") && access(getenv("HELD"), F_OK) == 0) usleep(1000);
    if (fails("SYNC_FAILS", "ERROR", &syncs)) return -1;
    int status = setting("SYNCS_LEFT_OUT") ? 0 : syscall(number, file);
    sprintf(name, "/proc/self/fd/%d", file);
    long length = syscall(SYS_readlink, name, path, sizeof path);
    if (status == 0) note("sync", file, 0, path, length < 0 ? 0 : length);
    return status;
}
int fsync(int file) { return synced(SYS_fsync, file); }
int fdatasync(int file) { return synced(SYS_fdatasync, file); }
static int interrupted(void) {
    errno = EINTR;
    return -1;
}
// The first so many calls of a kind are interrupted.
static int storms(const char *count, long *calls) { return __atomic_fetch_add(calls, 1, __ATOMIC_SEQ_CST) < setting(count); }
// With INTERRUPTS every other call that sends or receives is interrupted, and has moved nothing.
ssize_t send(int socket, const void *bytes, size_t count, int flags) {
    static long sends, stormed;
    if (storms("SEND_STORM", &stormed) || (setting("INTERRUPTS") && ++sends % 2)) return interrupted();
    note("out", socket, 0, bytes, piece(count));
    return syscall(SYS_sendto, socket, bytes, piece(count), flags, 0, 0);
}
ssize_t write(int file, const void *bytes, size_t count) {
    static long stormed;
    if (storms("WRITE_STORM", &stormed)) return interrupted();
    note("out", file, 0, bytes, piece(count));
    return syscall(SYS_write, file, bytes, piece(count));
}
// With WAITS it is written down too for how many milliseconds a client is waited for, for how many microseconds a thread
// rests, whether what is sent goes out at once, and that no more will be sent. The first UNREADY connections can't be set to
// send at once. Call READ_TIME_FAILS that bounds a read fails, and call WRITE_TIME_FAILS that bounds a write.
int setsockopt(int socket, int level, int option, const void *value, socklen_t length) {
    static long unready, reads, writes;
    if (level == SOL_SOCKET && option == SO_RCVTIMEO && fails("READ_TIME_FAILS", "ERROR", &reads)) return -1;
    if (level == SOL_SOCKET && option == SO_SNDTIMEO && fails("WRITE_TIME_FAILS", "ERROR", &writes)) return -1;
    if (level == IPPROTO_TCP && option == TCP_NODELAY) {
        if (unready < setting("UNREADY")) {
            unready += 1;
            errno = EINVAL;
            return -1;
        }
        if (getenv("WAITS")) note("at-once", socket, *(const int *)value, "", 0);
    }
    if (getenv("WAITS") && level == SOL_SOCKET && (option == SO_RCVTIMEO || option == SO_SNDTIMEO)) {
        const struct timeval *time = value;
        note(option == SO_RCVTIMEO ? "read-within" : "write-within", socket, time->tv_sec * 1000 + time->tv_usec / 1000, "", 0);
    }
    return syscall(SYS_setsockopt, socket, level, option, value, length);
}
int nanosleep(const struct timespec *time, struct timespec *left) {
    if (getenv("WAITS")) note("rest", 0, time->tv_sec * 1000000 + time->tv_nsec / 1000, "", 0);
    return syscall(SYS_nanosleep, time, left);
}
#ifdef __x86_64__
// For how many microseconds a thread has waited for another one, where that time passed and nobody came, is counted. (The C
// library's own `syscall` can't be looked up yet where the first call comes.)
long syscall(long number, ...) {
    long each[6], status;
    va_list arguments;
    va_start(arguments, number);
    for (int at = 0; at < 6; at++) each[at] = va_arg(arguments, long);
    va_end(arguments);
    register long fourth __asm__("r10") = each[3], fifth __asm__("r8") = each[4], sixth __asm__("r9") = each[5];
    __asm__ volatile("syscall" : "=a"(status) : "a"(number), "D"(each[0]), "S"(each[1]), "d"(each[2]), "r"(fourth), "r"(fifth),
                     "r"(sixth) : "rcx", "r11", "memory");
    if (status >= 0 || status < -4095) return status;
    if (number == SYS_futex && status == -ETIMEDOUT && getenv("WAITS")) {
        const struct timespec *time = (const struct timespec *)each[3];
        note("waited", 0, time->tv_sec * 1000000 + time->tv_nsec / 1000, "", 0);
    }
    errno = -status;
    return -1;
}
#endif
int shutdown(int socket, int how) {
    if (getenv("WAITS")) note("no-more", socket, how, "", 0);
    return syscall(SYS_shutdown, socket, how);
}
// Where a file is to be made, another process has just made one there: the file MEANWHILE has this name too.
int open(const char *path, int flags, ...) {
    va_list arguments;
    va_start(arguments, flags);
    int mode = flags & O_CREAT ? va_arg(arguments, int) : 0;
    va_end(arguments);
    if (flags & O_CREAT && getenv("MEANWHILE")) syscall(SYS_link, getenv("MEANWHILE"), path);
    return syscall(SYS_openat, AT_FDCWD, path, flags, mode);
}
// Thread number THREAD_FAILS can't be had.
int pthread_create(pthread_t *thread, const pthread_attr_t *how, void *(*run)(void *), void *given) {
    static long threads;
    int (*usual)(pthread_t *, const pthread_attr_t *, void *(*)(void *), void *) = dlsym(RTLD_NEXT, "pthread_create");
    return ++threads == setting("THREAD_FAILS") ? EAGAIN : usual(thread, how, run, given);
}
ssize_t read(int file, void *buffer, size_t count) { return syscall(SYS_read, file, buffer, piece(count)); }
// With STOPS each wait for what comes is interrupted after 10 ms. With WAITS it is written down that it was looked at what is there.
ssize_t recv(int socket, void *buffer, size_t count, int flags) {
    static long receives, stormed;
    if (flags & MSG_PEEK) {
        if (getenv("WAITS")) note("look", socket, 0, "", 0);
        return syscall(SYS_recvfrom, socket, buffer, count, flags, 0, 0);
    }
    if (storms("RECEIVE_STORM", &stormed) || (setting("INTERRUPTS") && ++receives % 2)) return interrupted();
    __atomic_add_fetch(&sockets_read, 1, __ATOMIC_SEQ_CST);
    if (!setting("STOPS")) return syscall(SYS_recvfrom, socket, buffer, piece(count), flags, 0, 0);
    ssize_t received = syscall(SYS_recvfrom, socket, buffer, piece(count), flags | MSG_DONTWAIT, 0, 0);
    if (received >= 0 || errno != EAGAIN) return received;
    usleep(10000);
    return interrupted();
}
"""


def has_compiler() -> bool:
    return shutil.which("cc") is not None


def compile_library(folder: str) -> str:
    """Compiles the library in this folder, unless it is already there. Returns its path."""
    if os.path.exists(f"{folder}/preloaded.so"):
        return f"{folder}/preloaded.so"
    with open(f"{folder}/preloaded.c", "w", encoding="ascii") as file:
        file.write(SOURCE)
    subprocess.run(["cc", "-O1", "-shared", "-fPIC", "-o", f"{folder}/preloaded.so", f"{folder}/preloaded.c"], check=True)
    return f"{folder}/preloaded.so"


def environment(folder: str, **settings: str | int) -> dict[str, str]:
    """Returns the environment with which a program's calls are changed in this way."""
    return {"LD_PRELOAD": compile_library(folder), **{name: str(value) for name, value in settings.items()}}


def both(first: dict[str, str], second: dict[str, str]) -> dict[str, str]:
    """Returns the environment with which two libraries are loaded before the C library."""
    return {**first, **second, "LD_PRELOAD": f"{first['LD_PRELOAD']}:{second['LD_PRELOAD']}"}
