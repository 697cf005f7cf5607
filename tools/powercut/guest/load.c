/* A server under orders of many clients. Whatever it has answered or printed is marked on the disk at once, before anything else. */
#define _GNU_SOURCE
#include "guest.h"
#include <arpa/inet.h>
#include <errno.h>
#include <fcntl.h>
#include <netinet/tcp.h>
#include <poll.h>
#include <signal.h>
#include <stdio.h>
#include <stdlib.h>
#include <string.h>
#include <sys/resource.h>
#include <sys/stat.h>
#include <sys/wait.h>
#include <unistd.h>

#define NODES 12
#define CLIENTS 15
#define PORT 4170
#define ADDRESS "127.0.0.1:4170"
#define MOST_REPLIES 64
#define TIMEOUT 120.0 /* seconds within which a server starts and answers */
#define IS_GONE (-3)

/* Lines that come in pieces. */
struct lines {
  char bytes[65536];
  size_t size;
};

static struct {
  char *program, *store;
  int orders, kills, closes;
} given;

static pid_t server;
static int output = -1, connection = -1;
static struct lines printed, replied;
static long greatest_step, answered, refused, signals, kills;
static int next_number[CLIENTS + 1];
static char burst_lines[CLIENTS][200]; /* of the orders that were sent last */
static char reply[MOST_REPLIES][160];
static int replies;

/* Reads what there is, and hands each whole line on. 0 if nothing came, 1 if something did, IS_GONE at the end. */
static int take_lines(int file, struct lines *lines, int (*take)(char *line, struct text *marked), struct text *marked) {
  ssize_t got = read(file, lines->bytes + lines->size, sizeof lines->bytes - 1 - lines->size);
  if (got < 0 && errno == EAGAIN) return 0;
  if (got <= 0) return IS_GONE;
  lines->size += (size_t)got;
  char *at = lines->bytes, *end;
  int any = 0;
  while ((end = memchr(at, '\n', lines->size - (size_t)(at - lines->bytes)))) {
    *end = 0;
    any |= take(at, marked);
    at = end + 1;
  }
  lines->size -= (size_t)(at - lines->bytes);
  memmove(lines->bytes, at, lines->size);
  return any;
}

static int take_signal(char *line, struct text *marked) {
  if (strncmp(line, "signal ", 7)) return 0;
  signals++;
  append(marked, line, strlen(line));
  append(marked, "\n", 1);
  return 1;
}

static int take_reply(char *line, struct text *marked) {
  (void)marked;
  char *found = strstr(line, "\"step\":");
  long step = found ? atol(found + 7) : 0;
  if (replies < MOST_REPLIES) snprintf(reply[replies++], sizeof *reply, "%s", line);
  answered += found != NULL;
  if (step <= greatest_step) return 0;
  greatest_step = step;
  return 1;
}

/* Takes what was printed and replied, and marks it. Whether the server is gone. */
static int take_and_mark(int has_printed, int has_replied) {
  struct text marked = {0};
  char step[40];
  int of_output = has_printed ? take_lines(output, &printed, take_signal, &marked) : 0;
  int of_connection = has_replied ? take_lines(connection, &replied, take_reply, &marked) : 0;
  if (of_output == 1 || of_connection == 1) {
    append(&marked, step, (size_t)snprintf(step, sizeof step, "least %ld\n", greatest_step));
    mark(marked.data);
  }
  free(marked.data);
  return of_output == IS_GONE || of_connection == IS_GONE;
}

/* Reads until there are this many replies, or, with 0, until these seconds are over. 0; -1 if it took too long; or IS_GONE, with all
 * taken that the pipe and the socket still had. */
static int listen_until(int wanted, double seconds) {
  double end = now() + seconds;
  while (!wanted || replies < wanted) {
    struct pollfd from[2] = {{output, POLLIN, 0}, {connection, POLLIN, 0}};
    int left = (int)((end - now()) * 1000);
    if (left <= 0) return wanted ? -1 : 0;
    if (poll(from, 2, left) <= 0) continue;
    if (!take_and_mark(from[0].revents, from[1].revents)) continue;
    for (int times = 0; times < 100 && !take_and_mark(1, 0); times++) {}
    for (int times = 0; times < 100 && !take_and_mark(0, 1); times++) {}
    return IS_GONE;
  }
  return 0;
}

/* Waits for the line that says where the server listens. */
static int await_listening(void) {
  char head[200];
  double end = now() + TIMEOUT;
  for (size_t size = 0; size < sizeof head - 1 && now() < end;) {
    struct pollfd from = {output, POLLIN, 0};
    if (poll(&from, 1, 1000) <= 0) continue;
    if (read(output, head + size, 1) != 1) return -1;
    if (head[size++] == '\n') return strncmp(head, "listening ", 10) ? -1 : 0;
  }
  return -1;
}

static int start_server(void) {
  int both[2];
  if (pipe(both)) return -1;
  server = fork();
  if (!server) {
    char *command[] = {given.program, "serve", given.store, ADDRESS, NULL};
    use_streams(open("/dev/null", O_RDWR), both[1], open("/tmp/serve.err", O_WRONLY | O_CREAT | O_TRUNC, 0600));
    execv(given.program, command);
    _exit(127);
  }
  close(both[1]);
  output = both[0];
  printed.size = replied.size = 0;
  replies = 0;
  if (await_listening()) return -1;
  fcntl(output, F_SETFL, O_NONBLOCK);
  int on = 1;
  connection = socket(AF_INET, SOCK_STREAM | SOCK_CLOEXEC, 0);
  setsockopt(connection, IPPROTO_TCP, TCP_NODELAY, &on, sizeof on);
  struct sockaddr_in address = {.sin_family = AF_INET, .sin_port = htons(PORT), .sin_addr = {htonl(INADDR_LOOPBACK)}};
  return connect(connection, (void *)&address, sizeof address);
}

static void leave_server(void) {
  close(connection);
  close(output);
  waitpid(server, NULL, 0);
}

static int send_text(const char *text, size_t size) { return write(connection, text, size) == (ssize_t)size ? 0 : -1; }

/* Finds each client's next number: a confirm that is refused for its epoch takes no number. */
static int find_numbers(void) {
  for (int client = 1; client <= CLIENTS; client++)
    for (next_number[client] = next_number[client] ? next_number[client] : 1;; next_number[client]++) {
      char line[200];
      int size = snprintf(line, sizeof line, "{\"op\":\"confirm\",\"client\":%d,\"number\":%d,\"node\":1,\"epoch\":0}\n", client, next_number[client]);
      replies = 0;
      if (send_text(line, (size_t)size) || listen_until(1, TIMEOUT)) return -1;
      if (strstr(reply[0], "\"refused\":15}")) break;
    }
  replies = 0;
  return 0;
}

/* Writes the line of an order of a client: mostly a reset, else a link made or dropped, or a confirm. */
static void write_order(char line[200], int client) {
  char head[80];
  int a = (int)random_below(NODES), b = (a + 1 + (int)random_below(2)) % NODES;
  unsigned kind = random_below(100);
  snprintf(head, sizeof head, "\"client\":%d,\"number\":%d", client, next_number[client]);
  if (kind < 70)
    snprintf(line, 200, "{\"op\":\"reset\",%s,\"node\":%d}\n", head, a + 1);
  else if (kind < 82)
    snprintf(line, 200, "{\"op\":\"%s\",%s,\"a\":%d,\"b\":%d}\n", random_below(2) ? "drop" : "join", head, a + 1, b + 1);
  else
    snprintf(line, 200, "{\"op\":\"confirm\",%s,\"node\":%d,\"epoch\":%u}\n", head, a + 1, 1 + random_below(9));
}

/* Sends orders of this many clients together. */
static int send_burst(int burst, int who[]) {
  struct text lines = {0};
  int is_used[CLIENTS + 1] = {0};
  for (int each = 0; each < burst; each++) {
    do who[each] = 1 + (int)random_below(CLIENTS); while (is_used[who[each]]);
    is_used[who[each]] = 1;
    write_order(burst_lines[each], who[each]);
    append(&lines, burst_lines[each], strlen(burst_lines[each]));
  }
  replies = 0;
  int failed = send_text(lines.data, lines.size);
  free(lines.data);
  return failed;
}

/* Waits for all replies of a burst, and counts them. What went wrong, or NULL. */
static const char *hear_burst(int burst, const int who[]) {
  if (listen_until(burst, TIMEOUT)) return "no answers";
  for (int each = 0; each < burst; each++) {
    if (strstr(reply[each], "\"step\":")) next_number[who[each]]++;
    else if (strstr(reply[each], "refused")) refused++;
    else return "an answer that is none";
  }
  if (random_below(8) == 0) listen_until(0, random_below(60) / 1000.0);
  return NULL;
}

/* Sends the orders of a burst again, one after the other: what was carried out before the kill is answered at once, by what the server
 * has read, and it has to be on the disk by then. */
static int send_burst_again(int burst) {
  for (int each = 0; each < burst; each++) {
    replies = 0;
    if (send_text(burst_lines[each], strlen(burst_lines[each])) || listen_until(1, TIMEOUT)) return -1;
  }
  return 0;
}

/* Kills the server soon after a burst, while its answers come, and starts it again. What went wrong, or NULL. */
static const char *kill_and_start(int burst) {
  static const unsigned most_microseconds[] = {10000, 30000, 90000};
  double until = now() + random_below(most_microseconds[random_below(3)]) / 1e6;
  while (now() < until && replies < burst && listen_until(replies + 1, until - now()) != IS_GONE) {}
  kill(server, SIGKILL);
  listen_until(0, 5);
  kills++;
  leave_server();
  if (mark("killed\n") || start_server() || send_burst_again(burst)) return "not started again";
  return mark("served\n") || find_numbers() ? "no numbers" : NULL;
}

/* A process that makes, changes and removes other files meanwhile. */
static pid_t start_noise(unsigned seed) {
  pid_t child = fork();
  if (child) return child;
  char bytes[16384], name[64], other[64];
  seed_random(seed * 77777ull + 5);
  mkdir("/mnt/noise", 0700);
  memset(bytes, 'n', sizeof bytes);
  setpriority(PRIO_PROCESS, 0, 10);
  for (;;) {
    snprintf(name, sizeof name, "/mnt/noise/%u", random_below(40));
    snprintf(other, sizeof other, "/mnt/noise/%u", random_below(40));
    unsigned kind = random_below(6);
    int file = kind > 2 ? open(name, O_WRONLY | O_CREAT, 0600) : -1;
    if (kind == 0) unlink(name);
    else if (kind == 1) rename(name, other);
    else if (kind == 2 && truncate(name, random_below(50000))) {}
    else if (file >= 0 && pwrite(file, bytes, random_below(sizeof bytes) + 1, random_below(32768)) > 0 && random_below(4) == 0) fsync(file);
    if (file >= 0) close(file);
    usleep(2000 + random_below(30000));
  }
}

/* Sends all orders. How many were sent; what went wrong stands in `why`. */
static int send_orders(const char **why) {
  static const int bursts[] = {1, 1, 2, 8, CLIENTS};
  int sent = 0, each_kill = given.kills ? given.orders / (given.kills + 1) : 0, next_kill = each_kill;
  while (sent < given.orders && !*why) {
    int who[CLIENTS], burst = bursts[random_below(sizeof bursts / sizeof *bursts)];
    if (send_burst(burst, who)) { *why = "nothing can be sent"; break; }
    sent += burst;
    if (each_kill && sent >= next_kill) {
      next_kill += each_kill;
      *why = kill_and_start(burst);
    } else {
      *why = hear_burst(burst, who);
    }
  }
  return sent;
}

/* Ends the server in order, or by a kill: its wait status, where it ended in order. */
static int end_server(void) {
  static const char close_line[] = "{\"op\":\"close\"}\n";
  int status = 0;
  if (given.closes && !send_text(close_line, sizeof close_line - 1)) {
    listen_until(MOST_REPLIES, 30);
    waitpid(server, &status, 0);
    close(connection);
    close(output);
    return status;
  }
  kill(server, SIGKILL);
  listen_until(0, 2);
  leave_server();
  return 0;
}

void run_load(char **fields) {
  const char *why = NULL;
  given.program = fields[1], given.store = fields[2], given.orders = atoi(fields[3]);
  given.kills = atoi(fields[6]), given.closes = atoi(fields[7]);
  seed_random((unsigned)atoi(fields[4]) * 1000003ull + 12345);
  greatest_step = answered = refused = signals = kills = 0;
  memset(next_number, 0, sizeof next_number);
  if (start_server()) { answer_text(1, "the server did not start"); return; }
  if (find_numbers()) { answer_text(1, "no numbers"); return; }
  pid_t noise = atoi(fields[5]) ? start_noise((unsigned)atoi(fields[4])) : 0;
  mark("load\n");
  int sent = send_orders(&why);
  if (!why) listen_until(0, 0.3);
  if (noise) { kill(noise, SIGKILL); waitpid(noise, NULL, 0); }
  if (why) {
    kill(server, SIGKILL);
    leave_server();
    answer_text(1, "%s after %d orders: %s", why, sent, replies ? reply[replies - 1] : "");
    return;
  }
  int status = end_server();
  mark("ended\n");
  answer_text(0, "orders %d answered %ld refused %ld least %ld signals %ld kills %ld status %d", sent, answered, refused, greatest_step, signals,
              kills, status);
}
