/* The members' rule and the order book of resetd, for a program in any language that calls C.
 *
 * docs/SERVICES.md describes a member; these functions return its due action and the texts that it stores
 * and sends. They read and write no file and no socket, and keep no state between two calls. Their results
 * are proved.
 *
 * A text is passed as a pointer to its bytes and their number, and may hold any bytes. The pointer must
 * not be NULL, even if the number is 0. A text that a call writes must not overlap another text of the
 * call. A call allocates with malloc, and has freed everything when it returns. Several threads may call
 * at once, as long as none writes a text that another one reads.
 *
 * Each function that returns a uint32_t returns RESETD_OK or one of the errors below. After an error,
 * ignore the written bytes; the order book that was passed in is unchanged.
 */
#ifndef RESETD_MEMBER_H
#define RESETD_MEMBER_H

#include <stdbool.h>
#include <stddef.h>
#include <stdint.h>

#ifdef __cplusplus
extern "C" {
#endif

enum {
  RESETD_OK = 0,
  RESETD_OUT_OF_MEMORY = 1,
  RESETD_NO_ROOM = 2,     /* the text has more bytes than the buffer */
  RESETD_BAD_LINE = 3,    /* the line is not the required answer */
  RESETD_NO_NODE = 4,     /* the view does not have the node: stop talking, and look again */
  RESETD_BAD_START = 5,   /* the file of the start cannot be read: remove it; the next look then asks for a reset */
  RESETD_BAD_HISTORY = 6, /* the file of the history cannot be read: remove all files of the member */
  RESETD_BAD_NUMBER = 7,  /* a number is out of range: a node is 1 to 64, a client 1 to 16, an op 1 to 6 */
  RESETD_IN_HAND = 8,     /* another order is already in hand */
  RESETD_NO_TEXT = 9      /* a text is not UTF-8 */
};

/* ---- the due action ---- */

enum {
  RESETD_TALK = 1,  /* talk, with the tag of resetd_tag */
  RESETD_WAIT = 2,  /* look again soon */
  RESETD_BEGIN = 3, /* discard the work, load the common start, store the text of resetd_loaded, confirm */
  RESETD_RESET = 4  /* ask for a reset, and look again */
};

/* The maximum size in bytes of the text of a start's file, followed by a line of the history. */
#define RESETD_MOST_TEXT 8192
/* The maximum size in bytes of a tag, and of the line of an order. */
#define RESETD_MOST_TAG 65
#define RESETD_MOST_LINE 128

/* The epoch that is stored with the present work, if there is work. */
struct resetd_work {
  bool is_there;
  uint64_t epoch;
};

struct resetd_judged {
  uint32_t due;        /* RESETD_TALK, .. */
  uint64_t epoch;      /* the shown epoch */
  size_t start_length; /* the size of the text to store in the file of the start; 0: do not change the file */
  size_t line_length;  /* the size of the line to add to the history before that; 0: add none */
  size_t history_size; /* the offset in the history at which to write the line; it replaces everything from there on */
};

/* The two files of a member, and the order in which to read, write and sync them:
 *
 * - When a process starts, before its first look, sync both files, if they exist, and their folder. The
 *   previous process may have been killed before its own sync; a power cut would then bring back an
 *   earlier text, and a start could talk in two runs. Then read the files, and pass the text of the
 *   start's file through resetd_carried.
 * - Put the line of the history on disk (fdatasync; if the file is new, fsync it and the folder) before
 *   you write the file of the start, and before the first message.
 * - Write the file of the start before the first message. It need not be synced: a power cut may leave an
 *   earlier text of it, or a part of one, which says that nothing is begun; the next look then asks for a
 *   reset. The text of resetd_loaded is valid in one boot only, so it needs no sync. If the file has the
 *   text of resetd_begun, which is valid in any boot (earlier versions wrote and synced it), sync the next
 *   text before the first message. If both texts have at most 512 bytes, write the new one over the old
 *   one in one call, with blanks before its line feed if it is shorter; otherwise replace the file.
 * - At RESETD_BEGIN, sync the text "nothing begun" before you discard the work, unless you replace the
 *   work as a whole, together with its epoch, and that epoch is above all epochs that the file ever had. */

/* Judges a line that answers `show`, for the member of a node. `start` and `history` are the contents of its files,
 * empty if a file does not exist. Writes to `out` the text for the file of the start, followed by the line for the
 * history. Store both before you act, the line first. */
uint32_t resetd_judge(const uint8_t *show, size_t show_length, uint8_t node, const uint8_t *start,
                      size_t start_length, const uint8_t *history, size_t history_length,
                      const struct resetd_work *work, uint8_t *out, size_t room,
                      struct resetd_judged *judged);

/* Writes the text for the file of the start once the common start for an epoch is loaded. Pass this text to
 * resetd_judge from then on. It is valid in any boot: store the text of resetd_loaded instead, or sync this
 * one. */
uint32_t resetd_begun(uint8_t node, uint64_t epoch, uint8_t *out, size_t room, size_t *length);

/* Writes the same text for a file that is not synced: it is valid only in the boot with this name, the line
 * in /proc/sys/kernel/random/boot_id. Still pass the text of resetd_begun to resetd_judge. */
uint32_t resetd_loaded(uint8_t node, uint64_t epoch, const uint8_t *boot, size_t boot_length,
                       uint8_t *out, size_t room, size_t *length);

/* Writes what the file of the start says in the boot with this name, as the text that resetd_judge takes.
 * Call it once, when a process starts. A text that a power cut has torn says that nothing is begun. */
uint32_t resetd_carried(uint8_t node, const uint8_t *start, size_t start_length, const uint8_t *boot,
                        size_t boot_length, uint8_t *out, size_t room, size_t *length);

/* Writes the tag of a start that is due to talk. `start` is the content of its file after the result of resetd_judge
 * was stored. `word` is the first line of each digest, empty if the group has no word. An empty tag means that the
 * start was alone, and talks with no other member. */
uint32_t resetd_tag(const uint8_t *show, size_t show_length, uint8_t node, const uint8_t *start,
                    size_t start_length, const uint8_t *word, size_t word_length, uint8_t *out,
                    size_t room, size_t *length);

/* Returns whether a message with the tag `other` belongs to the run of `own`, its receiver's tag. */
bool resetd_is_same_run(const uint8_t *own, size_t own_length, const uint8_t *other, size_t other_length);

/* Returns whether two starts with these tags will always refuse each other's messages. After a refused tag,
 * look again. If RESETD_TALK is due, and this function returns true for the present tag, ask for a reset: no
 * further look by either member can reconcile them. */
bool resetd_are_parted(const uint8_t *own, size_t own_length, const uint8_t *other, size_t other_length);

/* ---- the fence ---- */

/* The number of generations: a generation is below this. */
#define RESETD_GENERATIONS 8388608

/* Writes the fence of a start for a resource that several members use: a count and a tag, which do not change during
 * the start. `start` is the content of its file after the result of resetd_judge was stored. An empty tag means that
 * the start has no fence yet. The resource keeps a floor, a count and a tag, initially 0, 0 and empty. It accepts a
 * fence whose count is above the resource's count, or whose tag is the resource's and whose count is above the floor.
 * When it accepts a fence with another tag, the floor becomes the resource's count. Then its count becomes the greater
 * of both counts, and its tag the tag of the fence. So a start that a start of another run has replaced is never
 * accepted again, however late its request arrives. After the coordinator's store was restored, start all members with
 * a greater `generation`. */
uint32_t resetd_fence(uint8_t node, const uint8_t *start, size_t start_length, uint32_t generation,
                      const uint8_t *word, size_t word_length, uint64_t *count, uint8_t *out,
                      size_t room, size_t *length);

/* ---- the order book ---- */

enum {
  RESETD_ADD = 1,
  RESETD_REMOVE = 2,
  RESETD_JOIN = 3,
  RESETD_DROP = 4,
  RESETD_ORDER_RESET = 5,
  RESETD_CONFIRM = 6
};

struct resetd_order {
  uint8_t op;     /* RESETD_ADD, ..; 0 means no order */
  uint8_t a;      /* a node */
  uint8_t b;      /* the other node of a link, or the group of an added node */
  uint64_t epoch; /* the confirmed epoch */
};

/* An order book. Store it on disk before you send a line, and before you record the next order. */
struct resetd_orders {
  uint64_t last;               /* the number of the last order that was carried out; 0 for none */
  struct resetd_order in_hand; /* the order whose outcome is unknown */
};

enum {
  RESETD_DONE = 1,       /* the order was carried out */
  RESETD_NOT_DONE = 2,   /* the order was refused, and its number is free */
  RESETD_SEND_AGAIN = 3, /* the outcome is unknown: send the same line again after a pause */
  RESETD_COUNT_LOST = 4  /* the count differs from the server's: try `last` = 0, 1, 2 and so on until the
                            meaning is another one. A confirm or a reset may safely be repeated */
};

/* Records an order under the next number. */
uint32_t resetd_write_down(struct resetd_orders *orders, const struct resetd_order *order);

/* Writes the line to send for the order in hand, for the first time or again, with its line feed; empty if no
 * order is in hand. */
uint32_t resetd_order_line(const struct resetd_orders *orders, uint8_t client, uint8_t *out, size_t room,
                           size_t *length);

/* Handles the answer to the line that was sent last, and writes its meaning. Use a separate connection for each line:
 * a late answer on another connection must not be passed in. RESETD_BAD_LINE: the line was a fault, or torn. */
uint32_t resetd_hear(struct resetd_orders *orders, const uint8_t *line, size_t length, uint32_t *meaning);

#ifdef __cplusplus
}
#endif
#endif
