/*
 * Glykorant: translation tables for X, from text to selected calls.
 *
 * Link with libcapi.a, which `tools/build` writes to target/staticlib.
 * Every function is proved to meet its contract in crates/capi for all bytes
 * that may be lent, refused or not; no function allocates, and none keeps a
 * pointer or any other state of its own.
 *
 * A slice is a pointer and a length in bytes. No pointer may be null, not
 * even one of length 0. A buffer that is lent for writing (not const) must
 * not overlap any other buffer of the same call. Buffers need no alignment.
 *
 * Every answer but a length is one number of 64 bits: its lowest byte is a
 * number of enum tt_number, and its values stand above it.
 */
#ifndef GLYKORANT_H
#define GLYKORANT_H

#include <stddef.h>
#include <stdint.h>

#ifdef __cplusplus
extern "C" {
#endif

/* ---- Lengths, in bytes; docs/LAYOUT.md says what stands where */

/* A table, whatever it holds. A lent buffer may be longer: bytes past the
 * table are neither read nor written. */
#define TT_TABLE_LENGTH 10000

/* A matcher's state. Bytes past it are neither read nor written. */
#define TT_STATE_LENGTH 200

/* A keyboard map: for each keycode 8..255 two keysyms of 32 bits, the
 * unshifted and the shifted one, the least significant byte first. */
#define TT_MAP_LENGTH 1984

/* A modifier map with one keycode a row, and with eight, the most there are:
 * eight rows of 1 to 8 keycodes, those of Shift, Lock, Control and Mod1 to
 * Mod5, as the reply to GetModifierMapping has them; 0 stands for no key. It
 * follows the keyboard map in one buffer of maps. */
#define TT_MODIFIERS_LEAST 8
#define TT_MODIFIERS_MOST 64

/* An event as the server sends it, exactly. */
#define TT_RECORD_LENGTH 32

/* The longest text that is compiled. */
#define TT_TEXT_LIMIT 8192

/* ---- Numbers */

enum tt_number {
    TT_ACCEPTED = 0,
    /* A lent buffer is too short; the maps are below 1,984 bytes. */
    TT_SHORT_BUFFER = 1,
    /* The text is over 8,192 bytes. */
    TT_LONG_TEXT = 2,
    /* A byte other than tab, newline, 32..126 and 160..255. */
    TT_BAD_BYTE = 3,
    /* A line that is not in the grammar. */
    TT_NOT_GRAMMAR = 4,
    /* An unknown modifier, event type or detail name, or a detail where none
     * is taken. */
    TT_UNKNOWN_NAME = 5,
    /* A count that is not one digit 1..9, a count on other than key or button
     * events, or a number out of range. */
    TT_BAD_NUMBER = 6,
    /* A written modifier list on an event type that takes none (outside codes
     * 2..8). */
    TT_LIST_NOT_TAKEN = 7,
    /* No modifier state meets the event's test. */
    TT_IMPOSSIBLE_TEST = 8,
    /* A colon on a non-key event, or Shift or Lock beside a colon. */
    TT_MISPLACED_COLON = 9,
    /* A form that is not built yet: an atom's name as a detail, `+`. */
    TT_NOT_BUILT = 10,
    /* A limit on productions, events, calls or parameters is passed, or an
     * event names over four keysyms after `@`. */
    TT_PAST_LIMIT = 11,
    /* The table's bytes are no table, or a lent text is shorter than the
     * table says. */
    TT_TABLE_NOT_WHOLE = 12,
    /* An event record that is not 32 bytes, a code outside 2..34, a key
     * event's keycode below 8, or a byte order other than 'l' and 'B'. */
    TT_BAD_RECORD = 13,
    /* The state's bytes lie outside the ranges of a state (docs/LAYOUT.md).
     * It is a test of ranges: bytes within them pass, whether or not a call
     * would leave them. */
    TT_STATE_NOT_WHOLE = 14,
    /* The context would keep more than 24 events. No call gives it: no table
     * that is whole has a longer sequence. */
    TT_CONTEXT_FULL = 15,
    /* The production, call or parameter that is asked for is not there. */
    TT_NOT_THERE = 16,
    /* A table to merge is itself the result of a merge. */
    TT_ALREADY_MERGED = 17,
    /* What follows the keyboard map is not 8, 16, .. 64 bytes, or has an
     * entry 1..7. */
    TT_BAD_MODIFIER_MAP = 18
};

/* The number of an answer. */
#define TT_NUMBER(answer) ((unsigned)((answer) & 0xff))

/* The place of tt_compile, the length of tt_write, the count of
 * tt_productions, tt_calls and tt_parameters; of tt_match 0 where no
 * production is selected, else the production's number + 1. */
#define TT_VALUE(answer) ((uint64_t)(answer) >> 8)

/* Of tt_name and tt_parameter: 0 where the part stands in the first text and
 * 1 where it stands in the second, the byte at which it starts, and its
 * length. */
#define TT_TEXT(answer) ((unsigned)(((answer) >> 8) & 0xff))
#define TT_START(answer) ((size_t)(((answer) >> 16) & 0xffff))
#define TT_LENGTH(answer) ((size_t)((answer) >> 32))

/* TT_TABLE_LENGTH and TT_STATE_LENGTH, as the library has them. */
size_t tt_table_length(void);
size_t tt_state_length(void);

/* ---- Tables */

/*
 * Compiles a text into a table: the number, and 256 times the place of a
 * refusal: the byte for 3, the start of the line for 4..11, 0 otherwise.
 * Refused with 1 (the table's buffer), 2..11.
 * After a refusal with 1 the buffer is unchanged; after any other it holds
 * the empty table, all zero.
 * The table refers to its text by places: lend the same text with it.
 */
uint64_t tt_compile(const uint8_t *text, size_t text_length,
                    uint8_t *table, size_t table_length);

/*
 * Merges a new table into an old one, by the new table's directive: the
 * number. Refused with 1, 12, 17, 11.
 * After a refusal with 1 the output is unchanged; after any other it holds
 * the empty table. Afterwards the old table's text is the first text of the
 * result, and the new table's text its second.
 */
uint64_t tt_merge(const uint8_t *old_table, size_t old_length,
                  const uint8_t *new_table, size_t new_length,
                  uint8_t *out, size_t out_length);

/*
 * Writes the canonical text of a table: the number, and 256 times the length
 * of the text, 0 after a refusal. Refused with 1 (the table), 12, 1 (the
 * output). A refused write changes no byte, and bytes past the text are never
 * touched. A table that is not merged has no second text: lend any.
 * A key is written by its name where it has one, as `a`, `Return` or `eacute`,
 * and in hexadecimal otherwise; a keysym after `@` always in hexadecimal.
 */
uint64_t tt_write(const uint8_t *table, size_t table_length,
                  const uint8_t *first, size_t first_length,
                  const uint8_t *second, size_t second_length,
                  uint8_t *out, size_t out_length);

/* ---- What a table has; productions, calls and parameters count from 0 */

/* How many productions a table has: the number, and 256 times the count, 0
 * after a refusal. Refused with 1, 12. */
uint64_t tt_productions(const uint8_t *table, size_t table_length);

/* How many calls a production has: as before, and refused with 16 too. */
uint64_t tt_calls(const uint8_t *table, size_t table_length,
                  size_t production);

/* How many parameters a call has: as before. */
uint64_t tt_parameters(const uint8_t *table, size_t table_length,
                       size_t production, size_t call);

/*
 * Where the name of a call stands: the number, 256 times the text (0 the
 * first, 1 the second), 65,536 times the start and 2^32 times the length.
 * Refused with 1 (the table), 12, 16; a refusal has the empty part at the
 * start of the first text.
 */
uint64_t tt_name(const uint8_t *table, size_t table_length,
                 const uint8_t *first, size_t first_length,
                 const uint8_t *second, size_t second_length,
                 size_t production, size_t call);

/* Where a parameter stands, without its quotes: as tt_name. */
uint64_t tt_parameter(const uint8_t *table, size_t table_length,
                      const uint8_t *first, size_t first_length,
                      const uint8_t *second, size_t second_length,
                      size_t production, size_t call, size_t parameter);

/* ---- Matching */

/* Leaves a fresh state, which holds no events: the number. Refused with 1;
 * the buffer is then unchanged. */
uint64_t tt_fresh(uint8_t *state, size_t state_length);

/*
 * Hears one event: the number, and 256 times the selection: 0 for none, else
 * the production + 1. Two clicks pair where they come less than `time`
 * milliseconds apart. `order` is the byte order of the record, 'l' for the
 * least significant byte first and 'B' for the most significant.
 * `maps` is the keyboard map and, directly after it, the modifier map. Meta,
 * Alt, Hyper, Super and `@` with a keysym stand for the modifiers in whose
 * rows a key has such a keysym, so the same table serves any keyboard.
 * Refused with 1, 18, 12, 14, 13, 15, in this order. After a refusal, and after
 * an event whose type no production has, the state is unchanged; after any
 * other call it is the state for the next event.
 * A motion event directly after another takes its place, so that one motion
 * in a line matches any number of them, with a selection after each; a line
 * with two motions side by side is never selected.
 */
uint64_t tt_match(const uint8_t *table, size_t table_length,
                  const uint8_t *maps, size_t maps_length,
                  uint32_t time,
                  uint8_t *state, size_t state_length,
                  const uint8_t *record, size_t record_length,
                  uint8_t order);

#ifdef __cplusplus
}
#endif

#endif
