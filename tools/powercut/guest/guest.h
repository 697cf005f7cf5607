/* What the parts of the guest's only process share. */
#include <stddef.h>
#include <sys/types.h>

/* Text that grows, with a NUL byte after its last one. */
struct text {
  char *data;
  size_t size, room;
};

void append(struct text *text, const char *data, size_t size);
void append_file(struct text *text, int file);

/* Seconds of a clock that only goes forward, and numbers at random, below a bound. */
double now(void);
void seed_random(unsigned long long seed);
unsigned random_below(unsigned bound);

/* Answers the host: a status, what was printed, and what was printed as errors. */
void answer(int status, const struct text *printed, const struct text *errors);
void answer_text(int status, const char *format, ...) __attribute__((format(printf, 2, 3)));

/* Opens the device to which markers go, and writes one: past the page cache and without a flush, so that the host finds it in its
 * list of writes where it was made. Each returns 0 or an errno. */
int open_marker(const char *device);
int mark(const char *text);

/* Runs a program to its end, or kills it after these seconds. Its exit status; 128 and the number of the signal that ended it; 250 if it
 * did not run, and 251 if it was late. */
int run(char **command, int seconds, struct text *printed, struct text *errors);
/* In a child: replaces its standard streams, and closes what else is open. */
void use_streams(int input, int output, int errors);

/* load PROGRAM STORE ORDERS SEED NOISE KILLS CLOSES: runs a server under orders, and answers what became of them. */
void run_load(char **fields);
