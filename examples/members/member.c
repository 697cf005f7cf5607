/* A member in C, through a proxy, by resetd_member.h and docs/SERVICES.md.
 *
 * usage: member NODE unix:PATH|HOST:PORT FOLDER    (made by cc -o member member.c -lresetd_member)
 *
 * HOST:PORT is the address of stunnel, which connects to the TLS port of a proxy on another host.
 *
 * FOLDER has `work`, with the epoch that was begun; `start-NODE.json` and `start-NODE.history`, in the client library's
 * formats; `lock`, with the number of the process; and, while the group is in a run, `run`, with the epoch and the tag
 * (- for a member that is alone). Whoever refuses a message of another run writes its tag into `refused`. */
#define _POSIX_C_SOURCE 200809L
#include <errno.h>
#include <fcntl.h>
#include <inttypes.h>
#include <netdb.h>
#include <poll.h>
#include <resetd_member.h>
#include <stdbool.h>
#include <stdio.h>
#include <stdlib.h>
#include <string.h>
#include <sys/file.h>
#include <sys/socket.h>
#include <sys/stat.h>
#include <sys/un.h>
#include <time.h>
#include <unistd.h>

#define MOST_LINE 65536   /* bytes of a line of the proxy */
#define SILENT_SECONDS 45 /* a proxy that is there sends a view every 15 seconds */
#define SHOW "{\"op\":\"show\"}\n"
#define WATCH "{\"op\":\"watch\"}\n"

/* The bytes of a file, and a zero after them. */
struct text {
    uint8_t *bytes;
    size_t length;
};

struct proxy {
    int socket;
    size_t length; /* of the bytes that no line was taken from yet */
    char received[MOST_LINE];
};

struct member {
    uint8_t node;
    struct text boot; /* the name of this boot */
    struct resetd_work work;
    uint8_t start[RESETD_MOST_TEXT]; /* the start as resetd_judge takes it */
    size_t start_length;
    bool is_start_read; /* this process has not written the start file yet */
    char start_file[32], history_file[32];
};

static void expect(bool holds, const char *what)
{
    if (!holds) {
        perror(what);
        exit(EXIT_FAILURE);
    }
}

static void expect_ok(uint32_t status, const char *what)
{
    if (status != RESETD_OK) {
        fprintf(stderr, "%s: status %" PRIu32 " of resetd_member.h\n", what, status);
        exit(EXIT_FAILURE);
    }
}

/* ---- files ---- */

/* Reads a file. Returns no bytes if it is not there; a file that can't be read ends the member. */
static struct text read_file(const char *path)
{
    struct text text = {NULL, 0};
    size_t room = 0;
    ssize_t count = 0;
    int file = open(path, O_RDONLY | O_CLOEXEC);

    expect(file >= 0 || errno == ENOENT, path);
    do {
        text.length += (size_t)count;
        if (text.length + 1 >= room) {
            room += 4096;
            text.bytes = realloc(text.bytes, room);
            expect(text.bytes != NULL, path);
        }
        count = file < 0 ? 0 : read(file, text.bytes + text.length, room - text.length - 1);
        expect(count >= 0, path);
    } while (count > 0);
    text.bytes[text.length] = '\0';
    if (file >= 0)
        close(file);
    return text;
}

/* Syncs a file or a folder, if it is there. */
static void sync_path(const char *path)
{
    int file = open(path, O_RDONLY | O_CLOEXEC);

    if (file < 0 && errno == ENOENT)
        return;
    expect(file >= 0 && fsync(file) == 0 && close(file) == 0, path);
}

/* Replaces the bytes of a file from an offset on. */
static void write_at(const char *path, size_t at, const void *bytes, size_t size)
{
    int file = open(path, O_WRONLY | O_CREAT | O_CLOEXEC, 0666);

    expect(file >= 0 && ftruncate(file, (off_t)at) == 0, path);
    expect(pwrite(file, bytes, size, (off_t)at) == (ssize_t)size && close(file) == 0, path);
}

/* Replaces a file as a whole, durably if it is to be synced. */
static void replace(const char *path, const void *bytes, size_t size, bool is_synced)
{
    char new_path[64];

    snprintf(new_path, sizeof new_path, "%s.new", path);
    write_at(new_path, 0, bytes, size);
    if (is_synced)
        sync_path(new_path);
    expect(rename(new_path, path) == 0, path);
    if (is_synced)
        sync_path(".");
}

/* Replaces the start file. The first write of a process is always synced: after a power cut the text of an earlier
 * version, which counts in any boot, must not come back. */
static void write_start(struct member *member, const void *bytes, size_t size, bool is_synced)
{
    replace(member->start_file, bytes, size, is_synced || member->is_start_read);
    member->is_start_read = false;
}

/* ---- the proxy ---- */

static int connect_unix(const char *path)
{
    struct sockaddr_un address = {.sun_family = AF_UNIX};
    int connection = socket(AF_UNIX, SOCK_STREAM | SOCK_CLOEXEC, 0);

    snprintf(address.sun_path, sizeof address.sun_path, "%s", path);
    if (connection >= 0 && connect(connection, (struct sockaddr *)&address, sizeof address) == 0)
        return connection;
    close(connection);
    return -1;
}

static int connect_tcp(const char *address)
{
    struct addrinfo hints = {.ai_socktype = SOCK_STREAM}, *found = NULL;
    char host[256] = "";
    const char *colon = strrchr(address, ':');
    int connection = -1;

    if (colon == NULL)
        return -1;
    snprintf(host, sizeof host, "%.*s", (int)(colon - address), address);
    if (getaddrinfo(host, colon + 1, &hints, &found) != 0)
        return -1;
    for (struct addrinfo *each = found; each != NULL && connection < 0; each = each->ai_next) {
        connection = socket(each->ai_family, SOCK_STREAM | SOCK_CLOEXEC, 0);
        if (connection >= 0 && connect(connection, each->ai_addr, each->ai_addrlen) != 0) {
            close(connection);
            connection = -1;
        }
    }
    freeaddrinfo(found);
    return connection;
}

/* Sends a line. If the connection has ended, the next read reports it. */
static void send_line(struct proxy *proxy, const char *line)
{
    send(proxy->socket, line, strlen(line), MSG_NOSIGNAL);
}

/* Waits at most a second for a line. Returns its length with the line feed, 0 after a second, -1 at the connection's end. */
static ssize_t receive_line(struct proxy *proxy)
{
    struct pollfd readable = {.fd = proxy->socket, .events = POLLIN};
    const char *end;

    while ((end = memchr(proxy->received, '\n', proxy->length)) == NULL) {
        ssize_t count;

        if (poll(&readable, 1, 1000) == 0)
            return 0;
        count = recv(proxy->socket, proxy->received + proxy->length, sizeof proxy->received - proxy->length, 0);
        if (count <= 0)
            return -1;
        proxy->length += (size_t)count;
    }
    return end + 1 - proxy->received;
}

static void drop_line(struct proxy *proxy, size_t length)
{
    proxy->length -= length;
    memmove(proxy->received, proxy->received + length, proxy->length);
}

static bool begins_with(const struct proxy *proxy, const char *text)
{
    return proxy->length >= strlen(text) && memcmp(proxy->received, text, strlen(text)) == 0;
}

static void order(struct proxy *proxy, const char *op, uint8_t node, uint64_t epoch)
{
    char line[RESETD_MOST_LINE];

    snprintf(line, sizeof line, "{\"op\":\"%s\",\"node\":%d,\"epoch\":%" PRIu64 "}\n", op, node, epoch);
    send_line(proxy, line);
}

/* ---- the rule ---- */

/* Drops the work and begins an epoch. The start file says on the disk that nothing is begun. */
static void begin(struct member *member, uint64_t epoch)
{
    uint8_t text[RESETD_MOST_TEXT];
    size_t length = (size_t)snprintf((char *)text, sizeof text, "%" PRIu64 "\n", epoch);

    replace("work", text, length, true); /* the common start itself would stand here */
    member->work = (struct resetd_work){.is_there = true, .epoch = epoch};
    expect_ok(resetd_loaded(member->node, epoch, member->boot.bytes, member->boot.length, text, sizeof text, &length), "loaded");
    write_start(member, text, length, false);
    expect_ok(resetd_begun(member->node, epoch, member->start, sizeof member->start, &member->start_length), "begun");
    printf("member %d: starts anew, epoch %" PRIu64 "\n", member->node, epoch);
    fflush(stdout);
}

/* Takes the tag that was refused last. One that replaces it meanwhile is left for the next call. */
static struct text take_refused(void)
{
    struct text refused;

    expect(rename("refused", "refused.taken") == 0 || errno == ENOENT, "refused");
    refused = read_file("refused.taken");
    unlink("refused.taken");
    refused.length = strcspn((char *)refused.bytes, "\n");
    return refused;
}

/* Publishes the member's run in `run`. Returns whether a message was refused whose sender can't come to the same run. */
static bool talk(const struct member *member, uint64_t epoch, const struct proxy *proxy, size_t length)
{
    uint8_t tag[RESETD_MOST_TAG];
    char line[RESETD_MOST_TAG + 32];
    size_t tag_length;
    int size;
    bool are_parted;
    struct text refused = take_refused();

    expect_ok(resetd_tag((const uint8_t *)proxy->received, length, member->node, member->start, member->start_length,
                         (const uint8_t *)"", 0, tag, sizeof tag, &tag_length), "tag");
    size = snprintf(line, sizeof line, "%" PRIu64 " %.*s\n", epoch, tag_length ? (int)tag_length : 1,
                    tag_length ? (const char *)tag : "-");
    replace("run", line, (size_t)size, false);
    are_parted = resetd_are_parted(tag, tag_length, refused.bytes, refused.length);
    free(refused.bytes);
    return are_parted;
}

/* Judges the received view and carries out the result. Returns whether it sent an order. */
static bool look(struct member *member, struct proxy *proxy, size_t length)
{
    uint8_t out[RESETD_MOST_TEXT];
    struct resetd_judged judged = {.due = RESETD_WAIT};
    struct text history = read_file(member->history_file);
    uint32_t status = resetd_judge((const uint8_t *)proxy->received, length, member->node, member->start, member->start_length,
                                   history.bytes, history.length, &member->work, out, sizeof out, &judged);

    free(history.bytes);
    if (status != RESETD_OK || judged.due != RESETD_TALK)
        unlink("run");
    if (status == RESETD_NO_NODE)
        return false;
    expect_ok(status, "judge");
    if (judged.line_length > 0) {
        write_at(member->history_file, judged.history_size, out + judged.start_length, judged.line_length);
        sync_path(member->history_file);
        if (judged.history_size == 0)
            sync_path(".");
    }
    if (judged.start_length > 0) {
        write_start(member, out, judged.start_length, judged.due == RESETD_BEGIN);
        memcpy(member->start, out, judged.start_length);
        member->start_length = judged.start_length;
    }
    switch (judged.due) {
    case RESETD_BEGIN:
        begin(member, judged.epoch);
        order(proxy, "confirm", member->node, judged.epoch);
        return true;
    case RESETD_TALK:
        if (!talk(member, judged.epoch, proxy, length))
            return false;
        break;
    case RESETD_WAIT:
        return false;
    }
    order(proxy, "reset", member->node, judged.epoch);
    return true;
}

/* Watches, and judges each view, until the connection ends. */
static void follow(struct member *member, struct proxy *proxy)
{
    bool is_ordered = false; /* an order has no answer yet, so a view may be older than the order */
    int silence = 0;
    ssize_t length;

    send_line(proxy, WATCH);
    while (silence < SILENT_SECONDS && (length = receive_line(proxy)) >= 0) {
        if (length == 0) {
            silence++;
            if (access("refused", F_OK) == 0)
                send_line(proxy, SHOW);
            continue;
        }
        silence = 0;
        if (!begins_with(proxy, "{\"accepted\":")) { /* the answer to the order: judge a view from after it */
            if (begins_with(proxy, "{\"fault\":") && !begins_with(proxy, "{\"fault\":\"OutOfMemory\"")) {
                fprintf(stderr, "the proxy answers %.*s", (int)length, proxy->received);
                exit(EXIT_FAILURE);
            }
            is_ordered = false;
            send_line(proxy, SHOW);
        } else if (!is_ordered) {
            is_ordered = look(member, proxy, (size_t)length);
        }
        drop_line(proxy, (size_t)length);
    }
}

/* Holds the folder until the process ends, so that no other process is this member. */
static void lock_folder(const char *folder)
{
    char line[32];
    int lock = open("lock", O_RDWR | O_CREAT | O_CLOEXEC, 0666);

    expect(lock >= 0, "lock");
    if (flock(lock, LOCK_EX | LOCK_NB) != 0) {
        struct text holder;

        expect(errno == EWOULDBLOCK, "lock");
        holder = read_file("lock");
        fprintf(stderr, "process %.*s works with %s\n", (int)strcspn((char *)holder.bytes, "\n"), (char *)holder.bytes, folder);
        exit(EXIT_FAILURE);
    }
    snprintf(line, sizeof line, "%ld\n", (long)getpid());
    write_at("lock", 0, line, strlen(line));
}

/* Syncs the member's files, since the previous process may have been killed before its sync, and reads them. */
static void load(struct member *member)
{
    struct text start, work;

    snprintf(member->start_file, sizeof member->start_file, "start-%d.json", member->node);
    snprintf(member->history_file, sizeof member->history_file, "start-%d.history", member->node);
    sync_path("work");
    sync_path(member->start_file);
    sync_path(member->history_file);
    sync_path(".");
    member->boot = read_file("/proc/sys/kernel/random/boot_id");
    member->boot.length = strcspn((char *)member->boot.bytes, "\n");
    work = read_file("work");
    member->work.is_there = sscanf((char *)work.bytes, "%" SCNu64, &member->work.epoch) == 1;
    start = read_file(member->start_file);
    expect_ok(resetd_carried(member->node, start.bytes, start.length, member->boot.bytes, member->boot.length, member->start,
                             sizeof member->start, &member->start_length), member->start_file);
    member->is_start_read = true;
    free(work.bytes);
    free(start.bytes);
}

int main(int count, char **arguments)
{
    static struct member member;
    static struct proxy proxy;

    if (count != 4) {
        fprintf(stderr, "usage: member NODE unix:PATH|HOST:PORT FOLDER\n");
        return 2;
    }
    member.node = (uint8_t)atoi(arguments[1]);
    mkdir(arguments[3], 0777);
    expect(chdir(arguments[3]) == 0, arguments[3]);
    lock_folder(arguments[3]);
    load(&member);
    unlink("run"); /* before the first view nothing is known */
    for (;;) {
        bool is_unix = strncmp(arguments[2], "unix:", 5) == 0;

        proxy.length = 0;
        proxy.socket = is_unix ? connect_unix(arguments[2] + 5) : connect_tcp(arguments[2]);
        if (proxy.socket >= 0) {
            follow(&member, &proxy);
            close(proxy.socket);
        }
        nanosleep(&(struct timespec){.tv_nsec = 300 * 1000 * 1000}, NULL);
    }
}
