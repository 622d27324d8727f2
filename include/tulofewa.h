/*
 * Tulofewa, the catalogue edit line: text and cursor, motions and edits, undo with groups, a kill ring, keys, slips.
 * These are the entries of libtulofewa, which ./library builds; include/check holds this file against their source.
 *
 * State. All of it is the caller's; an entry keeps nothing and allocates nothing, so calls that share no buffer may run
 * at once in any threads. A text is a buffer and a tlf_line, a log is two buffers and a tlf_log, a ring is two buffers
 * and a tlf_ring. tlf_line and tlf_log go in by value and come back in the answer, whatever its number: put them where
 * the old ones stood. A tlf_ring goes in by pointer, save with tlf_line_key, which takes and gives it as the others. To
 * the entries named tlf_text_ a text is a buffer alone, all of it used, without a cursor.
 *
 * Buffers. A buffer is a pointer and its length in bytes. The pointer of a buffer of length 0 may be null or any other:
 * it is not followed. That of a tlf_ring is not null. The buffers of one call, and a tlf_ring, do not overlap. A buffer
 * lent as const is only read. Any bytes, lengths and numbers may come: what is unfit is refused. Bytes past a used
 * length mean nothing, and a call that is not refused may change them.
 *
 * Texts are UTF-8, of document 01's repertoire. Places, sizes and lengths are in bytes. C is text_len, the room of the
 * text. A character is a code point, n a repeat count.
 *
 * Numbers. Each answer has a number. 0 is done, 1 nothing (to be done, or found); from 2 on it is a refusal, which
 * changes no byte and hands the state back as it was. The checks run in number order, so the lowest number that applies
 * is answered. The one exception is a stop: tlf_log_undo, tlf_log_redo, tlf_log_cancel and the key that undoes try 12,
 * then 9, at each record and stop before the one in the way. The records handled earlier stay handled, and text, line
 * and log are those reached; a stopped cancel drops nothing.
 *
 * from, to, slot, size and value hold what an entry says that it answers, on number 0 alone. All else is 0.
 */
#ifndef TULOFEWA_H
#define TULOFEWA_H

#include <stddef.h>
#include <stdint.h>

#ifdef __cplusplus
extern "C" {
#endif

/*
 * ---- Version. It is MAJOR.MINOR.PATCH; the shared library's soname is libtulofewa.so.MAJOR. 0 is a MAJOR like any
 * other. MAJOR rises where a program built with the header before may not run: an entry goes, its parameters or a
 * struct are others, or an entry needs more stack than was said. MINOR rises where an entry, a number, a code or a
 * limit is added, or a call answers something else than before. PATCH rises else. A number or a code keeps its meaning
 * for ever. A number that a program does not know is a refusal, which changed nothing.
 */

#define TLF_VERSION_MAJOR 0
#define TLF_VERSION_MINOR 2
#define TLF_VERSION_PATCH 0
#define TLF_VERSION 200 /* MAJOR * 10000 + MINOR * 100 + PATCH */
#define TLF_VERSION_STRING "0.2.0"

/* ---- Limits */

#define TLF_TEXT_MAX 4096      /* C at most, and the bytes of one slot of a ring */
#define TLF_RECORDS_MAX 32768  /* a records buffer at most */
#define TLF_TEXTS_MAX 65535    /* a log texts buffer at most */
#define TLF_SLOTS_MAX 16       /* a ring's size at most */
#define TLF_PROMPT_MAX 1024    /* a prompt column at most */
#define TLF_LEVEL_MAX 255      /* a group level at most */
#define TLF_STACK_MAX 49152    /* bytes of stack that tlf_log_undo, tlf_log_redo, tlf_log_cancel and tlf_line_key need
                                  at most, 4,096 for the C library's memcpy and memset among them */
#define TLF_STACK_OTHERS 16384 /* the same of the other entries */

/* ---- Numbers */

enum tlf_number {
    TLF_DONE = 0,       /* done */
    TLF_NOTHING = 1,    /* nothing to be done, or nothing found */
    TLF_SIZES = 2,      /* a buffer or ring over its limit, a used length over its buffer, a text to put in longer
                           than C, buffers shorter than their ring asks */
    TLF_CODE = 3,       /* a code that names nothing */
    TLF_FOREIGN = 4,    /* a text or character that is not UTF-8, or is outside the repertoire */
    TLF_PLACE = 5,      /* a cursor or end beyond the text, a start after its end, a yank size above the cursor */
    TLF_SPLIT = 6,      /* a cursor, start or end inside a character */
    TLF_PROMPT = 7,     /* a prompt column over its limit */
    TLF_DAMAGED = 8,    /* a log or a ring that breaks its layout */
    TLF_FULL = 9,       /* the text would be longer than C, if only on the way */
    TLF_LOG_FULL = 10,  /* the records or their texts would not fit, a record would have to store a place over 65,535,
                           or a group would open above level 255 */
    TLF_RING_FULL = 11, /* a slot would pass 4,096 bytes */
    TLF_MISFIT = 12,    /* undo, redo or cancel meets a record whose range leaves the text or cuts a character */
    TLF_UNBOUND = 13,   /* bytes that are no key: tlf_line_key alone */
    TLF_PAGE_FULL = 14  /* a slip longer than its page: tlf_text_slip alone */
};

/* The word of a number, as document 01 and the orders have it; "unknown" for a number that is not above. */
static inline const char *tlf_number_word(uint32_t number)
{
    switch (number) {
    case TLF_DONE: return "done";
    case TLF_NOTHING: return "nothing";
    case TLF_SIZES: return "sizes";
    case TLF_CODE: return "code";
    case TLF_FOREIGN: return "foreign";
    case TLF_PLACE: return "place";
    case TLF_SPLIT: return "split";
    case TLF_PROMPT: return "prompt";
    case TLF_DAMAGED: return "damaged";
    case TLF_FULL: return "full";
    case TLF_LOG_FULL: return "log full";
    case TLF_RING_FULL: return "ring full";
    case TLF_MISFIT: return "misfit";
    case TLF_UNBOUND: return "unbound";
    case TLF_PAGE_FULL: return "page full";
    default: return "unknown";
    }
}

/* ---- Codes. Only those that a call or its movement uses are looked at. */

/* mvt. In brackets what else of a movement's numbers (n, at, word, search, ch) it uses. */
enum tlf_movement {
    TLF_MVT_WHOLE_LINE = 0,
    TLF_MVT_BEGINNING_OF_LINE = 1,
    TLF_MVT_END_OF_LINE = 2,
    TLF_MVT_BACKWARD_WORD = 3,  /* (n, word) */
    TLF_MVT_FORWARD_WORD = 4,   /* (n, at, word) */
    TLF_MVT_VI_CHAR_SEARCH = 5, /* (n, search, ch) */
    TLF_MVT_VI_FIRST_PRINT = 6,
    TLF_MVT_BACKWARD_CHAR = 7, /* (n), as all that follow but the last three */
    TLF_MVT_FORWARD_CHAR = 8,
    TLF_MVT_LINE_UP = 9,
    TLF_MVT_LINE_DOWN = 10,
    TLF_MVT_WHOLE_BUFFER = 11,
    TLF_MVT_BEGINNING_OF_BUFFER = 12,
    TLF_MVT_END_OF_BUFFER = 13
};

/* word: what a word is made of. */
enum tlf_word {
    TLF_WORD_BIG = 0,   /* all that is not white space */
    TLF_WORD_EMACS = 1, /* alphanumeric clusters */
    TLF_WORD_VI = 2     /* alphanumeric clusters and "_", or a run of others */
};

/* at: where a forward word motion stops. */
enum tlf_at {
    TLF_AT_START = 0,
    TLF_AT_BEFORE_END = 1,
    TLF_AT_AFTER_END = 2
};

/* search: the direction, and on which side of the character it ends. */
enum tlf_search {
    TLF_SEARCH_FORWARD = 0,
    TLF_SEARCH_FORWARD_BEFORE = 1,
    TLF_SEARCH_BACKWARD = 2,
    TLF_SEARCH_BACKWARD_AFTER = 3
};

/* action: the case that a word gets. */
enum tlf_action {
    TLF_ACTION_CAPITALIZE = 0,
    TLF_ACTION_LOWERCASE = 1,
    TLF_ACTION_UPPERCASE = 2
};

/* mode: where a kill goes that follows a kill. */
enum tlf_mode {
    TLF_MODE_APPEND = 0,
    TLF_MODE_PREPEND = 1
};

/* tlf_ring's last action. */
enum tlf_last {
    TLF_LAST_KILL = 0,
    TLF_LAST_YANK = 1,
    TLF_LAST_OTHER = 2
};

/* ---- State and answers */

/* A text's used length, and the cursor. */
typedef struct tlf_line {
    size_t len;
    size_t cursor;
} tlf_line;

/* A list's used lengths in the log's two buffers. */
typedef struct tlf_used {
    size_t records;
    size_t texts;
} tlf_used;

/*
 * The undo list stands in front in both buffers, oldest first, the redo list right behind it, next to be redone first.
 * A record is a byte of kind and 2-byte little-endian numbers: 1 Begin; 2 End; 3 Insert and 4 Delete with place and
 * length; 5 Replace with place, old length and new length. Their texts follow in the same order, old before new.
 */
typedef struct tlf_log {
    tlf_used undo;
    tlf_used redo;
    size_t level; /* of open groups */
} tlf_log;

/* A ring's slots have TLF_TEXT_MAX bytes each in `slots`, and in `lens` their used lengths, 2 bytes little-endian. */
typedef struct tlf_ring {
    size_t size;   /* the slots that there may be; 0 is a ring that keeps nothing */
    size_t count;  /* those in use */
    size_t index;  /* where we are among them */
    size_t action; /* the last action, of enum tlf_last */
    size_t yanked; /* the yank's size, 0 after anything else */
} tlf_ring;

typedef struct tlf_line_answer {
    uint32_t number;
    size_t from;
    size_t to;
    tlf_line line;
} tlf_line_answer;

typedef struct tlf_log_answer {
    uint32_t number;
    size_t from;
    size_t to;
    tlf_log log;
} tlf_log_answer;

typedef struct tlf_edit_answer {
    uint32_t number;
    size_t from;
    size_t to;
    tlf_line line;
    tlf_log log;
} tlf_edit_answer;

typedef struct tlf_ring_answer {
    uint32_t number;
    size_t slot;
    size_t size;
} tlf_ring_answer;

typedef struct tlf_key_answer {
    uint32_t number;
    size_t from;
    size_t to;
    tlf_line line;
    tlf_log log;
    tlf_ring ring;
} tlf_key_answer;

typedef struct tlf_value_answer {
    uint32_t number;
    size_t value;
} tlf_value_answer;

/*
 * ---- Edits. The text and the log are lent. What is cut and put in is recorded in the undo list, and the redo list is
 * dropped; the cursor goes where the comment says. 1 leaves text, cursor and log alone where nothing else is said.
 * Each may answer 0, 2, 4, 5, 6, 8 and 10; in brackets what else.
 */

/* The whole text becomes buf, the cursor pos, which is tried against buf. */
tlf_edit_answer tlf_line_update(
    uint8_t *text, size_t text_len, uint8_t *records, size_t records_len, uint8_t *texts, size_t texts_len,
    tlf_line line, tlf_log log, const uint8_t *buf, size_t buf_len, size_t pos);

/* Puts ch in n times; the cursor goes behind. Once, a letter or digit joins an Insert that ends at the cursor. [9] */
tlf_edit_answer tlf_line_insert(
    uint8_t *text, size_t text_len, uint8_t *records, size_t records_len, uint8_t *texts, size_t texts_len,
    tlf_line line, tlf_log log, uint32_t ch, uint16_t n);

/* Puts buf in n times; the cursor goes behind. 1 where buf is empty. [1, 9] */
tlf_edit_answer tlf_line_yank(
    uint8_t *text, size_t text_len, uint8_t *records, size_t records_len, uint8_t *texts, size_t texts_len,
    tlf_line line, tlf_log log, const uint8_t *buf, size_t buf_len, uint16_t n);

/* Cuts the yank_size bytes before the cursor and puts buf there; the cursor goes behind. 1 where buf is empty: it cuts,
 * records and drops the redo list all the same. [1, 9] */
tlf_edit_answer tlf_line_yank_pop(
    uint8_t *text, size_t text_len, uint8_t *records, size_t records_len, uint8_t *texts, size_t texts_len,
    tlf_line line, tlf_log log, size_t yank_size, const uint8_t *buf, size_t buf_len);

/* Cuts n clusters from the cursor on. from, to: the places between which it cut, in the text as it was. [1] */
tlf_edit_answer tlf_line_delete(
    uint8_t *text, size_t text_len, uint8_t *records, size_t records_len, uint8_t *texts, size_t texts_len,
    tlf_line line, tlf_log log, uint16_t n);

/* Cuts n clusters before the cursor, which goes to the start of the cut. [1] */
tlf_edit_answer tlf_line_backspace(
    uint8_t *text, size_t text_len, uint8_t *records, size_t records_len, uint8_t *texts, size_t texts_len,
    tlf_line line, tlf_log log, uint16_t n);

/* Cuts to the end of the line, or the newline where the cursor stands at it. [1] */
tlf_edit_answer tlf_line_kill_line(
    uint8_t *text, size_t text_len, uint8_t *records, size_t records_len, uint8_t *texts, size_t texts_len,
    tlf_line line, tlf_log log);

/* Cuts to the end of the text. [1] */
tlf_edit_answer tlf_line_kill_buffer(
    uint8_t *text, size_t text_len, uint8_t *records, size_t records_len, uint8_t *texts, size_t texts_len,
    tlf_line line, tlf_log log);

/* Cuts back to the start of the line, or the newline before the cursor where it stands there. [1] */
tlf_edit_answer tlf_line_discard_line(
    uint8_t *text, size_t text_len, uint8_t *records, size_t records_len, uint8_t *texts, size_t texts_len,
    tlf_line line, tlf_log log);

/* Cuts back to the start of the text. [1] */
tlf_edit_answer tlf_line_discard_buffer(
    uint8_t *text, size_t text_len, uint8_t *records, size_t records_len, uint8_t *texts, size_t texts_len,
    tlf_line line, tlf_log log);

/* Exchanges the clusters before and at the cursor (at the end of the text: the last two); the cursor goes behind
 * them. [1] */
tlf_edit_answer tlf_line_transpose_chars(
    uint8_t *text, size_t text_len, uint8_t *records, size_t records_len, uint8_t *texts, size_t texts_len,
    tlf_line line, tlf_log log);

/* Cuts n words back, or to 0 where there are fewer; the cursor goes to the start of the cut. [1, 3] */
tlf_edit_answer tlf_line_delete_prev_word(
    uint8_t *text, size_t text_len, uint8_t *records, size_t records_len, uint8_t *texts, size_t texts_len,
    tlf_line line, tlf_log log, uint32_t word, uint16_t n);

/* Cuts n words forward. [1, 3] */
tlf_edit_answer tlf_line_delete_word(
    uint8_t *text, size_t text_len, uint8_t *records, size_t records_len, uint8_t *texts, size_t texts_len,
    tlf_line line, tlf_log log, uint32_t at, uint32_t word, uint16_t n);

/* Cuts to the n-th ch, or the last one where there are fewer: with it (Forward, Backward) or up to it. The cursor is at
 * the start of the cut. [1, 3] */
tlf_edit_answer tlf_line_delete_to(
    uint8_t *text, size_t text_len, uint8_t *records, size_t records_len, uint8_t *texts, size_t texts_len,
    tlf_line line, tlf_log log, uint32_t search, uint32_t ch, uint16_t n);

/* Gives the next word from the cursor on another case; the cursor goes behind it. [1, 3] */
tlf_edit_answer tlf_line_edit_word(
    uint8_t *text, size_t text_len, uint8_t *records, size_t records_len, uint8_t *texts, size_t texts_len,
    tlf_line line, tlf_log log, uint32_t action);

/* Exchanges the n-th word on and the n-th before that one; the cursor goes behind both. 1 where they are not two words:
 * the cursor is left at the first one's end. [1, 9] */
tlf_edit_answer tlf_line_transpose_words(
    uint8_t *text, size_t text_len, uint8_t *records, size_t records_len, uint8_t *texts, size_t texts_len,
    tlf_line line, tlf_log log, uint16_t n);

/* Replaces what stands from start to end by buf, as one record; the cursor goes behind buf. [9] */
tlf_edit_answer tlf_line_replace(
    uint8_t *text, size_t text_len, uint8_t *records, size_t records_len, uint8_t *texts, size_t texts_len,
    tlf_line line, tlf_log log, size_t start, size_t end, const uint8_t *buf, size_t buf_len);

/* Cuts what stands from start to end; the cursor goes to start. */
tlf_edit_answer tlf_line_delete_range(
    uint8_t *text, size_t text_len, uint8_t *records, size_t records_len, uint8_t *texts, size_t texts_len,
    tlf_line line, tlf_log log, size_t start, size_t end);

/* Cuts what the movement goes over; the cursor is at the start of the cut. [1, 3] */
tlf_edit_answer tlf_line_kill(
    uint8_t *text, size_t text_len, uint8_t *records, size_t records_len, uint8_t *texts, size_t texts_len,
    tlf_line line, tlf_log log, uint32_t mvt, uint16_t n, uint32_t at, uint32_t word, uint32_t search, uint32_t ch);

/* Puts `amount` spaces in front of each line, or with a dedent other than 0 takes as much white space away: from the
 * movement's first line to the last that a newline ends, or to the end of the text where no newline follows. The cursor
 * goes with its character. An indent by 0 leaves the log alone. [3, 9] */
tlf_edit_answer tlf_line_indent(
    uint8_t *text, size_t text_len, uint8_t *records, size_t records_len, uint8_t *texts, size_t texts_len,
    tlf_line line, tlf_log log, uint32_t mvt, uint16_t n, uint32_t at, uint32_t word, uint32_t search, uint32_t ch,
    uint8_t amount, uint8_t dedent);

/*
 * ---- Motions and questions. The text is lent and only read; at most the answer's cursor differs. 1 leaves it.
 * Each may answer 0, 1, 2, 4, 5 and 6; in brackets what else.
 */

/* from: the place n clusters on, or the end where there are fewer. The cursor stays. */
tlf_line_answer tlf_line_next_pos(const uint8_t *text, size_t text_len, tlf_line line, uint16_t n);

/* from, to: the places between which the movement's text stands. The cursor stays. [3] */
tlf_line_answer tlf_line_copy(
    const uint8_t *text, size_t text_len, tlf_line line, uint32_t mvt, uint16_t n, uint32_t at, uint32_t word,
    uint32_t search, uint32_t ch);

/* 0 where the cursor is at the end of the text, else 1. */
tlf_line_answer tlf_line_is_cursor_at_end(const uint8_t *text, size_t text_len, tlf_line line);

/* 0 where only white space follows the cursor, else 1. */
tlf_line_answer tlf_line_is_end_of_input(const uint8_t *text, size_t text_len, tlf_line line);

/* The cursor goes to pos; 0 also where it stands there. Never 1. */
tlf_line_answer tlf_line_set_pos(const uint8_t *text, size_t text_len, tlf_line line, size_t pos);

/* n clusters on. */
tlf_line_answer tlf_line_move_forward(const uint8_t *text, size_t text_len, tlf_line line, uint16_t n);

/* n clusters back. */
tlf_line_answer tlf_line_move_backward(const uint8_t *text, size_t text_len, tlf_line line, uint16_t n);

/* To the start of the text. */
tlf_line_answer tlf_line_move_buffer_start(const uint8_t *text, size_t text_len, tlf_line line);

/* To the end of the text. */
tlf_line_answer tlf_line_move_buffer_end(const uint8_t *text, size_t text_len, tlf_line line);

/* To the start of the line. */
tlf_line_answer tlf_line_move_home(const uint8_t *text, size_t text_len, tlf_line line);

/* To the end of the line. */
tlf_line_answer tlf_line_move_end(const uint8_t *text, size_t text_len, tlf_line line);

/* n words back, or to 0 where there are fewer. [3] */
tlf_line_answer tlf_line_move_to_prev_word(
    const uint8_t *text, size_t text_len, tlf_line line, uint32_t word, uint16_t n);

/* n words on. [3] */
tlf_line_answer tlf_line_move_to_next_word(
    const uint8_t *text, size_t text_len, tlf_line line, uint32_t at, uint32_t word, uint16_t n);

/* n lines up, by columns; prompt is the column where the first line starts. n = 0 is 1. [7] */
tlf_line_answer tlf_line_move_to_line_up(
    const uint8_t *text, size_t text_len, tlf_line line, uint16_t n, size_t prompt);

/* n lines down, likewise. [7] */
tlf_line_answer tlf_line_move_to_line_down(
    const uint8_t *text, size_t text_len, tlf_line line, uint16_t n, size_t prompt);

/* To the n-th ch, or the last one where there are fewer. [3] */
tlf_line_answer tlf_line_move_to(
    const uint8_t *text, size_t text_len, tlf_line line, uint32_t search, uint32_t ch, uint16_t n);

/*
 * ---- The log. Records and texts are lent. An edit records by itself: insert, insert_str, delete, replace and truncate
 * are for a caller that keeps the text on its own. All but truncate and last_insert drop the redo list.
 * Each but tlf_log_new may answer 0, 2 and 8; in brackets what else.
 */

/* A log with both lists empty and level 0, for any buffers. */
tlf_log tlf_log_new(void);

/* Opens a group. from: its mark, the number of records before it. [10] */
tlf_log_answer tlf_log_begin(
    uint8_t *records, size_t records_len, uint8_t *texts, size_t texts_len, tlf_log log);

/* Closes all open groups; the level is 0 then. Groups without a record are dropped: 1 where that is all. [1, 10] */
tlf_log_answer tlf_log_end(
    uint8_t *records, size_t records_len, uint8_t *texts, size_t texts_len, tlf_log log);

/* Records ch, typed at idx. [4, 10] */
tlf_log_answer tlf_log_insert(
    uint8_t *records, size_t records_len, uint8_t *texts, size_t texts_len, tlf_log log, size_t idx, uint32_t ch);

/* Records buf, put in at idx; an empty one makes no record. [4, 10] */
tlf_log_answer tlf_log_insert_str(
    uint8_t *records, size_t records_len, uint8_t *texts, size_t texts_len, tlf_log log, size_t idx,
    const uint8_t *buf, size_t buf_len);

/* Records buf, cut at idx; an empty one makes no record. [4, 10] */
tlf_log_answer tlf_log_delete(
    uint8_t *records, size_t records_len, uint8_t *texts, size_t texts_len, tlf_log log, size_t idx,
    const uint8_t *buf, size_t buf_len);

/* Records that `old` at idx became `new_`. [4, 10] */
tlf_log_answer tlf_log_replace(
    uint8_t *records, size_t records_len, uint8_t *texts, size_t texts_len, tlf_log log, size_t idx,
    const uint8_t *old, size_t old_len, const uint8_t *new_, size_t new_len);

/* Keeps the undo list's first len records. Text, level and redo list stay: a group is taken back by tlf_log_cancel. */
tlf_log_answer tlf_log_truncate(
    uint8_t *records, size_t records_len, uint8_t *texts, size_t texts_len, tlf_log log, size_t len);

/* from, to: where in `texts` the text stands that the newest record, Ends apart, has put in; 1 where it is none that
 * puts a text in. The log is only read. [1] */
tlf_log_answer tlf_log_last_insert(
    const uint8_t *records, size_t records_len, const uint8_t *texts, size_t texts_len, tlf_log log);

/*
 * ---- Undo. The text is lent to be written, the log to be read: undone records become the redo list, redone ones the
 * undo list, by the used lengths alone. Each may answer 0, 1, 2, 4, 5, 6 and 8, and stop with 9 and 12.
 */

/* Undoes n units, a unit being a record or a closed group; n = 0 is 1. 1 where no change of the text was undone; a lone
 * Begin is passed all the same. The cursor goes behind what was put back, or to the place of a cut. */
tlf_edit_answer tlf_log_undo(
    uint8_t *text, size_t text_len, const uint8_t *records, size_t records_len, const uint8_t *texts,
    size_t texts_len, tlf_line line, tlf_log log, uint16_t n);

/* Redoes n units; n = 0 is nothing. The cursor as for undo. */
tlf_edit_answer tlf_log_redo(
    uint8_t *text, size_t text_len, const uint8_t *records, size_t records_len, const uint8_t *texts,
    size_t texts_len, tlf_line line, tlf_log log, uint16_t n);

/* Takes back an open group: undoes every record from the mark on, drops them and the redo list, and lowers the level by
 * the Begins dropped, not below 0. 1, and nothing changed, where the mark's record is no Begin or an End comes after
 * it. The cursor as for undo. */
tlf_edit_answer tlf_log_cancel(
    uint8_t *text, size_t text_len, const uint8_t *records, size_t records_len, const uint8_t *texts,
    size_t texts_len, tlf_line line, tlf_log log, size_t mark);

/*
 * ---- The ring. `slots` has TLF_TEXT_MAX bytes and `lens` 2 bytes for each slot of the ring's size, or more; what
 * stands in them from the count on is not looked at. *ring is updated. Each but tlf_ring_new may answer 0, 2 and 8; in
 * brackets what else.
 */

/* *ring becomes an empty ring of that size, for any buffers that are long enough. Answers 0, or 2 for a size over 16,
 * which leaves *ring alone. */
uint32_t tlf_ring_new(tlf_ring *ring, size_t size);

/* The last action is other: the next kill takes a new slot, and there is no yank to pop. */
tlf_ring_answer tlf_ring_reset(
    const uint8_t *slots, size_t slots_len, const uint8_t *lens, size_t lens_len, tlf_ring *ring);

/* Keeps a text: after a kill in the same slot, at its end (Append) or front (Prepend), else in the next one, which it
 * overwrites. A text over 4,096 bytes is 11; a ring of size 0 keeps nothing and answers 0. [3, 4, 11] */
tlf_ring_answer tlf_ring_kill(
    uint8_t *slots, size_t slots_len, uint8_t *lens, size_t lens_len, tlf_ring *ring, const uint8_t *text,
    size_t text_len, uint32_t mode);

/* slot: that of the last kill, or where yank_pop has gone since. 1 where there is none. [1] */
tlf_ring_answer tlf_ring_yank(
    const uint8_t *slots, size_t slots_len, const uint8_t *lens, size_t lens_len, tlf_ring *ring);

/* slot: the one before, round the ring; size: that of the yank which this one takes the place of, for
 * tlf_line_yank_pop. 1 where the last action is no yank. [1] */
tlf_ring_answer tlf_ring_yank_pop(
    const uint8_t *slots, size_t slots_len, const uint8_t *lens, size_t lens_len, tlf_ring *ring);

/*
 * ---- Keys. The bytes of one key do what its call on the line does, and to the ring what belongs to it: both, or
 * neither. C-x is control x, a byte below 0x20; ESC is 0x1B. The key may have a count in front: ESC and all the ASCII
 * digits behind it, in decimal, held at 65,535; without one n is 1. Whatever else comes is 13: no bytes, half a key,
 * two keys, a control or ESC key that is not named here. A host that reads a terminal cuts its bytes into keys itself.
 *
 *   a character, U+0009, \n, \r  tlf_line_insert of it, n                                       reset
 *   C-a, C-e                     tlf_line_move_home, tlf_line_move_end                          reset
 *   C-b, C-f                     tlf_line_move_backward, tlf_line_move_forward n                reset
 *   ESC b                        tlf_line_move_to_prev_word Emacs n                             reset
 *   ESC f                        tlf_line_move_to_next_word AfterEnd Emacs n                    reset
 *   C-d                          tlf_line_delete n                                              reset
 *   C-t                          tlf_line_transpose_chars                                       reset
 *   ESC t                        tlf_line_transpose_words n                                     reset
 *   ESC c, ESC l, ESC u          tlf_line_edit_word Capitalize, Lowercase, Uppercase            reset
 *   C-_                          tlf_log_undo n                                                 reset
 *   C-k                          tlf_line_kill_line                                             kill, Append
 *   C-u                          tlf_line_discard_line                                          kill, Prepend
 *   C-w                          tlf_line_delete_prev_word Big n                                kill, Prepend
 *   ESC d                        tlf_line_delete_word AfterEnd Emacs n                          kill, Append
 *   C-y                          tlf_line_yank n, of the ring's yank                            yank
 *   ESC y                        tlf_line_yank_pop, of the ring's yank_pop                      yank_pop
 *
 * A count in front of a key whose call has no n is passed over. What a kill cuts goes to the ring; a kill answered 1
 * leaves the ring as it is, and so does a yank of a ring that has nothing to give, which is 1. Every other key answered
 * 0 or 1 resets the ring; a refused or stopped one does not.
 */

/* Text, log and ring are tried by 2 to 8 whatever the key, and by 4 the key's bytes but those below 0x20 and 0x7F; with
 * them what a yank would put in. Then comes 13, then what the two calls give, the lowest number. from, to: what C-d has
 * cut. May answer 0, 1, 2, 4, 5, 6, 8, 9, 10, 11 and 13, and stop with 9 and 12. A buffer that none of the key's calls
 * writes keeps every byte. */
tlf_key_answer tlf_line_key(
    uint8_t *text, size_t text_len, uint8_t *records, size_t records_len, uint8_t *texts, size_t texts_len,
    uint8_t *slots, size_t slots_len, uint8_t *lens, size_t lens_len, tlf_line line, tlf_log log, tlf_ring ring,
    const uint8_t *key, size_t key_len);

/*
 * ---- Texts without a cursor. A text is lent and only read, all text_len bytes of it. Each may answer 0, 2 and 4; in
 * brackets what else.
 */

/* Lays the text out on the page as a slip: lines of exactly 60 columns, each padded with spaces and closed by \n. A
 * word is a longest run of clusters without white space. A line takes as many words as fit, one space between; a word
 * over 60 columns starts a line and is cut between clusters at 60, its rest being taken as a word. A \n, also in \r\n,
 * ends the line, and a line without words is 60 spaces; after a \n that ends the text, or for an empty text, no line
 * follows. value: the slip's length in bytes, 61 * text_len at most. The page's bytes behind the slip stay as they
 * were; 14 where the slip is longer than the page. [14] */
tlf_value_answer tlf_text_slip(const uint8_t *text, size_t text_len, uint8_t *page, size_t page_len);

#ifdef __cplusplus
}
#endif

#endif
