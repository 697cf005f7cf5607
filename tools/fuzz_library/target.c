/* What libFuzzer calls: the functions of resetd_member.h with any bytes, held to what the header says of them.
 *
 * An input is a list of fields, each of them two bytes of length (the high one first) and its bytes; the last field is what is left. The
 * first field has the numbers: node, client, an op with two nodes, how many bytes too small the room is, whether there is work, its epoch,
 * the epoch of the op, the last number of the orders, the order in hand, and four bytes for the generation of the fence. A number that the
 * field is too short for is 0. Then come the answer to `show`, the file of the start, the history, the word and another tag. The word is
 * also the name of the boot. */
#include <resetd_member.h>
#include <stdio.h>
#include <stdlib.h>
#include <string.h>

struct text {
  uint8_t *bytes;
  size_t length;
};

struct input {
  uint8_t node, client, short_of;
  uint32_t generation;
  struct resetd_order order;
  struct resetd_work work;
  struct resetd_orders orders;
  struct text show, start, history, word, tag;
};

#define EXPECT(holds) \
  do { if (!(holds)) { fprintf(stderr, "%s:%d: it does not hold that %s\n", __FILE__, __LINE__, #holds); abort(); } } while (0)

static int are_same(const struct resetd_orders *a, const struct resetd_orders *b) {
  return a->last == b->last && a->in_hand.op == b->in_hand.op && a->in_hand.a == b->in_hand.a && a->in_hand.b == b->in_hand.b &&
         a->in_hand.epoch == b->in_hand.epoch;
}

static int are_judged_alike(const struct resetd_judged *a, const struct resetd_judged *b) {
  return a->due == b->due && a->epoch == b->epoch && a->start_length == b->start_length && a->line_length == b->line_length &&
         a->history_size == b->history_size;
}

static int are_equal(const struct text *a, const struct text *b) { return a->length == b->length && !memcmp(a->bytes, b->bytes, a->length); }

/* A buffer of exactly this size with no text: AddressSanitizer reports each access past its end. */
static struct text buffer(size_t room) {
  struct text made = {malloc(room ? room : 1), 0};
  EXPECT(made.bytes);
  return made;
}

static struct text copy(const uint8_t *bytes, size_t length) {
  struct text made = buffer(length);
  if (length) memcpy(made.bytes, bytes, length);
  made.length = length;
  return made;
}

static struct text take_field(const uint8_t **at, size_t *left) {
  if (*left < 2) { struct text rest = copy(*at, *left); *at += *left; *left = 0; return rest; }
  size_t length = (size_t)(*at)[0] << 8 | (*at)[1];
  *at += 2, *left -= 2;
  if (length > *left) length = *left;
  struct text field = copy(*at, length);
  *at += length, *left -= length;
  return field;
}

static uint64_t number_at(const struct text *text, size_t at) {
  uint64_t number = 0;
  for (size_t each = at; each < at + 8; each++) number = number << 8 | (each < text->length ? text->bytes[each] : 0);
  return number;
}

static uint8_t byte_at(const struct text *text, size_t at) { return at < text->length ? text->bytes[at] : 0; }

static struct input read_input(const uint8_t *bytes, size_t size) {
  struct text numbers = take_field(&bytes, &size);
  struct input in = {.node = byte_at(&numbers, 0), .client = byte_at(&numbers, 1), .short_of = byte_at(&numbers, 5)};
  in.order = (struct resetd_order){byte_at(&numbers, 2), byte_at(&numbers, 3), byte_at(&numbers, 4), number_at(&numbers, 15)};
  in.work = (struct resetd_work){byte_at(&numbers, 6) & 1, number_at(&numbers, 7)};
  in.orders = (struct resetd_orders){number_at(&numbers, 23), {byte_at(&numbers, 31), byte_at(&numbers, 32), byte_at(&numbers, 33), number_at(&numbers, 34)}};
  in.generation = (uint32_t)(number_at(&numbers, 42) >> 32);
  in.show = take_field(&bytes, &size);
  in.start = take_field(&bytes, &size);
  in.history = take_field(&bytes, &size);
  in.word = take_field(&bytes, &size);
  in.tag = copy(bytes, size);
  free(numbers.bytes);
  return in;
}

static void free_input(struct input *in) {
  free(in->show.bytes);
  free(in->start.bytes);
  free(in->history.bytes);
  free(in->word.bytes);
  free(in->tag.bytes);
}

/* A judgement into a buffer of this size, past whose end no byte may be written. Its status, and the text if it is 0. */
static uint32_t judge(const struct input *in, const struct text *start, size_t room, struct resetd_judged *judged, struct text *given) {
  *given = buffer(room);
  uint32_t status = resetd_judge(in->show.bytes, in->show.length, in->node, start->bytes, start->length, in->history.bytes, in->history.length,
                                 &in->work, given->bytes, room, judged);
  if (status == RESETD_OK) given->length = judged->start_length + judged->line_length;
  EXPECT(given->length <= room);
  return status;
}

static uint32_t tag(const struct input *in, const uint8_t *start, size_t length, size_t room, struct text *given) {
  *given = buffer(room);
  uint32_t status = resetd_tag(in->show.bytes, in->show.length, in->node, start, length, in->word.bytes, in->word.length, given->bytes, room,
                               &given->length);
  EXPECT(status == RESETD_NO_ROOM || given->length <= room);
  return status;
}

static uint32_t loaded(const struct input *in, size_t room, struct text *given) {
  *given = buffer(room);
  uint32_t status = resetd_loaded(in->node, in->work.epoch, in->word.bytes, in->word.length, given->bytes, room, &given->length);
  EXPECT(status != RESETD_OK || given->length <= room);
  return status;
}

static uint32_t carried(const struct input *in, const struct text *start, const struct text *boot, size_t room, struct text *given) {
  *given = buffer(room);
  uint32_t status = resetd_carried(in->node, start->bytes, start->length, boot->bytes, boot->length, given->bytes, room, &given->length);
  EXPECT(status != RESETD_OK || given->length <= room);
  return status;
}

static uint32_t fence(const struct input *in, const struct text *start, uint32_t generation, size_t room, uint64_t *count, struct text *given) {
  *given = buffer(room);
  uint32_t status = resetd_fence(in->node, start->bytes, start->length, generation, in->word.bytes, in->word.length, count, given->bytes, room,
                                 &given->length);
  EXPECT(status != RESETD_OK || given->length <= room);
  return status;
}

/* The room for a second call after one that gave this text: as many bytes as it has, or too few if the input says so. */
static size_t room_for(const struct input *in, const struct text *given) {
  return given->length > in->short_of ? given->length - in->short_of : 0;
}

/* A second call gives the same status and text as the first one, but RESETD_NO_ROOM if its room is too small for that text. */
static void expect_again(uint32_t status, const struct text *given, size_t room, uint32_t status_again, const struct text *again) {
  if (status == RESETD_OK && given->length > room) {
    EXPECT(status_again == RESETD_NO_ROOM);
  } else {
    EXPECT(status_again == status);
    EXPECT(status != RESETD_OK || are_equal(given, again));
  }
}

/* Statuses that a text of a caller can lead to; memory is never short here. */
static void expect_status(uint32_t status) {
  EXPECT(status <= RESETD_NO_TEXT && status != RESETD_OUT_OF_MEMORY && status != RESETD_IN_HAND);
}

/* A file whose text was just given for a start that talks has a fence. */
static void expect_fence(const struct input *in, const struct text *start) {
  struct text given;
  uint64_t count = 0;
  uint32_t status = fence(in, start, in->generation, RESETD_MOST_TAG, &count, &given);
  EXPECT(status != RESETD_OK || given.length);
  free(given.bytes);
}

/* A start that is due to talk has a tag, and the file that was given for it is read again. */
static void expect_talk(const struct input *in, const struct resetd_judged *judged, const struct text *given) {
  const struct text start = judged->start_length ? (struct text){given->bytes, judged->start_length} : in->start;
  struct resetd_judged again;
  struct text text, own;
  EXPECT(judged->due == RESETD_TALK);
  uint32_t status = tag(in, start.bytes, start.length, RESETD_MOST_TAG, &own);
  EXPECT(status == RESETD_OK || (status == RESETD_NO_TEXT && in->word.length));
  if (status == RESETD_OK && own.length) EXPECT(resetd_is_same_run(own.bytes, own.length, own.bytes, own.length));
  if (status == RESETD_OK) EXPECT(!resetd_are_parted(own.bytes, own.length, own.bytes, own.length));
  resetd_is_same_run(own.bytes, own.length, in->tag.bytes, in->tag.length);
  resetd_are_parted(own.bytes, own.length, in->tag.bytes, in->tag.length);
  EXPECT(judge(in, &start, RESETD_MOST_TEXT, &again, &text) == RESETD_OK && again.due == RESETD_TALK && again.epoch == judged->epoch);
  if (judged->start_length) expect_fence(in, &start);
  free(own.bytes);
  free(text.bytes);
}

static void try_judge(const struct input *in) {
  struct resetd_judged judged = {0}, other = {0};
  struct text given, shorter;
  uint32_t status = judge(in, &in->start, RESETD_MOST_TEXT, &judged, &given);
  expect_status(status);
  EXPECT(status != RESETD_NO_ROOM);
  if (status == RESETD_OK) {
    EXPECT(judged.due >= RESETD_TALK && judged.due <= RESETD_RESET);
    EXPECT(judged.history_size <= in->history.length && judged.history_size % 65 == 0);
    EXPECT(judged.line_length == 0 || judged.line_length == 65);
    size_t room = given.length > in->short_of ? given.length - in->short_of : 0;
    uint32_t wanted = room < given.length ? RESETD_NO_ROOM : RESETD_OK;
    EXPECT(judge(in, &in->start, room, &other, &shorter) == wanted);
    if (wanted == RESETD_OK) EXPECT(are_judged_alike(&judged, &other) && !memcmp(given.bytes, shorter.bytes, given.length));
    free(shorter.bytes);
    if (judged.due == RESETD_TALK) expect_talk(in, &judged, &given);
  }
  free(given.bytes);
}

static void try_begun(const struct input *in) {
  uint8_t text[RESETD_MOST_TEXT];
  size_t length = 0;
  uint32_t status = resetd_begun(in->node, in->work.epoch, text, sizeof text, &length);
  EXPECT(status == RESETD_OK && length < sizeof text);
}

/* In the boot with this name the file has this text. */
static void expect_carried(const struct input *in, const struct text *start, const struct text *boot, const struct text *wanted) {
  struct text given;
  EXPECT(carried(in, start, boot, wanted->length, &given) == RESETD_OK && are_equal(&given, wanted));
  free(given.bytes);
}

static void expect_nothing_begun(const struct input *in, const struct text *start, const struct text *boot) {
  char text[64];
  int length = snprintf(text, sizeof text, "{\"%u\": {\"begun\": null, \"party\": null}}\n", in->node);
  expect_carried(in, start, boot, &(struct text){(uint8_t *)text, (size_t)length});
}

/* In its boot the text of a loaded start says the same as the text of resetd_begun; in another boot, or torn, that nothing is begun. */
static void expect_loaded(const struct input *in, const struct text *start) {
  struct text other = {(uint8_t *)"another boot", 12}, begun = buffer(RESETD_MOST_TEXT);
  struct text torn = copy(start->bytes, start->length - 1 - in->short_of % start->length);
  EXPECT(resetd_begun(in->node, in->work.epoch, begun.bytes, RESETD_MOST_TEXT, &begun.length) == RESETD_OK);
  if (in->word.length) expect_carried(in, start, &in->word, &begun);
  if (!are_equal(&in->word, &other)) expect_nothing_begun(in, start, &other);
  expect_nothing_begun(in, &torn, &in->word);
  free(begun.bytes);
  free(torn.bytes);
}

/* Whether a string of JSON has this text unchanged between its quotes. */
static int is_plain(const struct text *text) {
  for (size_t each = 0; each < text->length; each++)
    if (text->bytes[each] < ' ' || text->bytes[each] == '"' || text->bytes[each] == '\\') return 0;
  return 1;
}

static void try_loaded(const struct input *in) {
  struct text given, again;
  uint32_t status = loaded(in, in->word.length + RESETD_MOST_TEXT, &given);
  EXPECT(status == RESETD_OK || status == RESETD_NO_TEXT);
  size_t room = room_for(in, &given);
  uint32_t status_again = loaded(in, room, &again);
  expect_again(status, &given, room, status_again, &again);
  if (status == RESETD_OK && is_plain(&in->word)) expect_loaded(in, &given);
  free(given.bytes);
  free(again.bytes);
}

/* The text of a file in one boot is read again: it says the same in any boot. */
static void expect_read(const struct input *in, const struct text *start) {
  struct resetd_judged judged = {0};
  struct text given;
  expect_carried(in, start, &in->word, start);
  EXPECT(judge(in, start, RESETD_MOST_TEXT, &judged, &given) != RESETD_BAD_START);
  free(given.bytes);
}

/* A file without a line feed at its end was torn by a power cut, or does not exist. Names with a backslash are never in a file of a member,
 * and may not be read again. */
static void try_carried(const struct input *in) {
  const struct text *start = &in->start;
  struct text given, again;
  uint32_t status = carried(in, start, &in->word, 2 * start->length + RESETD_MOST_TEXT, &given);
  EXPECT(status == RESETD_OK || status == RESETD_BAD_START || status == RESETD_NO_TEXT);
  size_t room = room_for(in, &given);
  uint32_t status_again = carried(in, start, &in->word, room, &again);
  expect_again(status, &given, room, status_again, &again);
  if (status != RESETD_NO_TEXT && (!start->length || start->bytes[start->length - 1] != '\n')) expect_nothing_begun(in, start, &in->word);
  if (status == RESETD_OK && !memchr(start->bytes, '\\', start->length)) expect_read(in, &given);
  free(given.bytes);
  free(again.bytes);
}

/* A fence of a later generation has a greater count. */
static void expect_greater(const struct input *in, uint64_t count) {
  struct text given;
  uint64_t greater = 0;
  EXPECT(fence(in, &in->start, in->generation + 1, RESETD_MOST_TAG, &greater, &given) == RESETD_OK && greater > count);
  free(given.bytes);
}

static void try_fence(const struct input *in) {
  struct text given, again;
  uint64_t count = 0, count_again = 0;
  uint32_t status = fence(in, &in->start, in->generation, RESETD_MOST_TAG, &count, &given);
  EXPECT(status == RESETD_OK || status == RESETD_BAD_START || status == RESETD_BAD_NUMBER || status == RESETD_NO_TEXT);
  EXPECT((status == RESETD_BAD_NUMBER) == (in->generation >= RESETD_GENERATIONS));
  size_t room = room_for(in, &given);
  uint32_t status_again = fence(in, &in->start, in->generation, room, &count_again, &again);
  expect_again(status, &given, room, status_again, &again);
  if (status == RESETD_OK && status_again == RESETD_OK) EXPECT(count == count_again);
  if (status == RESETD_OK && given.length && in->generation + 1 < RESETD_GENERATIONS) expect_greater(in, count);
  free(given.bytes);
  free(again.bytes);
}

static void try_tag(const struct input *in) {
  struct text given;
  expect_status(tag(in, in->start.bytes, in->start.length, in->short_of, &given));
  free(given.bytes);
  resetd_is_same_run(in->word.bytes, in->word.length, in->tag.bytes, in->tag.length);
  resetd_are_parted(in->word.bytes, in->word.length, in->tag.bytes, in->tag.length);
}

/* Orders of any numbers, and then ones in which no order is in hand: a refused order leaves the numbers unchanged. */
static void try_orders(const struct input *in, struct resetd_orders orders) {
  uint8_t line[RESETD_MOST_LINE];
  size_t length = 0;
  uint32_t meaning = 0;
  struct resetd_orders before = orders;
  uint32_t status = resetd_write_down(&orders, &in->order);
  EXPECT(status == RESETD_OK || status == RESETD_BAD_NUMBER || status == RESETD_IN_HAND);
  if (status != RESETD_OK) EXPECT(are_same(&before, &orders));
  status = resetd_order_line(&orders, in->client, line, sizeof line, &length);
  EXPECT(status == RESETD_BAD_NUMBER || (status == RESETD_OK && length <= sizeof line));
  before = orders;
  status = resetd_hear(&orders, in->show.bytes, in->show.length, &meaning);
  expect_status(status);
  if (status != RESETD_OK) EXPECT(are_same(&before, &orders));
  if (status == RESETD_OK && meaning == RESETD_DONE) EXPECT(orders.last == before.last + 1 && orders.in_hand.op == 0);
}

int LLVMFuzzerTestOneInput(const uint8_t *bytes, size_t size);
int LLVMFuzzerTestOneInput(const uint8_t *bytes, size_t size) {
  struct input in = read_input(bytes, size);
  try_judge(&in);
  try_begun(&in);
  try_loaded(&in);
  try_carried(&in);
  try_fence(&in);
  try_tag(&in);
  try_orders(&in, in.orders);
  try_orders(&in, (struct resetd_orders){in.orders.last, {0, 0, 0, 0}});
  free_input(&in);
  return 0;
}
