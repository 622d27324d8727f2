/*
 * Buffers of length 0 with a null pointer, wherever an entry is lent a buffer, each alone and with the others, on an
 * empty line and on a filled one: the same as with a pointer that is not null, in the answer and in every byte of the
 * caller's. Prints the rows that fail, and how many there are. null.cpp is the same, with an empty buffer of C++.
 */
#include "tulofewa.h"

#include <stdio.h>
#include <string.h>

#ifndef EMPTY
#define EMPTY NULL
#endif

static struct state {
    uint8_t text[32], records[32], texts[32], slots[2 * TLF_TEXT_MAX], lens[4], buf[3], key[2], page[64];
    tlf_line line;
    tlf_log log;
    tlf_ring ring;
} s, left;

static unsigned rows, failed, not_refused;
static unsigned mask;  /* which of a call's buffers have length 0 */
static int null;       /* and whether their pointer is null */
static uint8_t spare;

static uint8_t *empty(void)
{
    return null ? EMPTY : &spare;
}

#define LENT(i, buffer) (mask >> (i) & 1 ? empty() : s.buffer), (mask >> (i) & 1 ? 0 : sizeof s.buffer)
#define TEXT LENT(0, text), s.line
#define EDIT LENT(0, text), LENT(1, records), LENT(2, texts), s.line, s.log
#define LOG LENT(0, records), LENT(1, texts), s.log
#define RING LENT(0, slots), LENT(1, lens), &s.ring

/* An empty line and log with a ring of 0 slots, or a line, a log with both lists and a ring with a kill. */
static void begin(int filled)
{
    unsigned lengths = mask;
    mask = 0;
    memset(&s, 0, sizeof s);
    memcpy(s.buf, "box", sizeof s.buf);
    memcpy(s.key, "\x1B" "b", sizeof s.key);
    s.log = tlf_log_new();
    (void)tlf_ring_new(&s.ring, filled ? 2 : 0);
    for (uint16_t n = 1; filled && n < 3; n++) {
        tlf_edit_answer a = tlf_line_yank(EDIT, LENT(3, buf), n);
        s.line = a.line;
        s.log = a.log;
    }
    if (filled) {
        tlf_edit_answer a = tlf_log_undo(EDIT, 1);
        s.line = a.line;
        s.log = a.log;
        (void)tlf_ring_kill(RING, LENT(2, buf), TLF_MODE_APPEND);
        (void)tlf_ring_yank(RING);
    }
    mask = lengths;
}

/* An answer as a list of numbers. */
struct flat {
    size_t of[16];
};

static struct flat flat(uint32_t number, size_t a, size_t b, const tlf_line *line, const tlf_log *log)
{
    struct flat f = {{number, a, b}};
    if (line != NULL) {
        f.of[3] = line->len;
        f.of[4] = line->cursor;
    }
    if (log != NULL) {
        size_t list[] = {log->undo.records, log->undo.texts, log->redo.records, log->redo.texts, log->level};
        memcpy(f.of + 5, list, sizeof list);
    }
    return f;
}

static struct flat of_line(tlf_line_answer a)
{
    return flat(a.number, a.from, a.to, &a.line, NULL);
}

static struct flat of_log(tlf_log_answer a)
{
    return flat(a.number, a.from, a.to, NULL, &a.log);
}

static struct flat of_edit(tlf_edit_answer a)
{
    return flat(a.number, a.from, a.to, &a.line, &a.log);
}

static struct flat of_ring(tlf_ring_answer a)
{
    return flat(a.number, a.slot, a.size, NULL, NULL);
}

static struct flat of_key(tlf_key_answer a)
{
    struct flat f = flat(a.number, a.from, a.to, &a.line, &a.log);
    size_t ring[] = {a.ring.size, a.ring.count, a.ring.index, a.ring.action, a.ring.yanked};
    memcpy(f.of + 10, ring, sizeof ring);
    return f;
}

static struct flat of_value(tlf_value_answer a)
{
    return flat(a.number, a.value, 0, NULL, NULL);
}

static void row(const char *name, int filled, const struct flat *with, const struct flat *without)
{
    rows++;
    not_refused += without->of[0] <= TLF_NOTHING;
    if (memcmp(with, without, sizeof *with) != 0 || memcmp(&left, &s, sizeof s) != 0) {
        failed++;
        printf("%s, %s line, buffers %x of length 0: %s with a null pointer, else %s\n", name,
               filled ? "filled" : "empty", mask, tlf_number_word((uint32_t)without->of[0]),
               tlf_number_word((uint32_t)with->of[0]));
    }
}

/* A call that is lent so many buffers, with each set of them at length 0. */
#define TRY(buffers, answer, entry, ...) \
    for (int filled = 0; filled < 2; filled++) { \
        for (mask = 1; mask < 1u << (buffers); mask++) { \
            null = 0; \
            begin(filled); \
            struct flat with = answer(entry(__VA_ARGS__)); \
            memcpy(&left, &s, sizeof s); \
            null = 1; \
            begin(filled); \
            struct flat without = answer(entry(__VA_ARGS__)); \
            row(#entry, filled, &with, &without); \
        } \
    }

static void edits(void)
{
    TRY(4, of_edit, tlf_line_update, EDIT, LENT(3, buf), 0)
    TRY(3, of_edit, tlf_line_insert, EDIT, 'a', 1)
    TRY(4, of_edit, tlf_line_yank, EDIT, LENT(3, buf), 1)
    TRY(4, of_edit, tlf_line_yank_pop, EDIT, 0, LENT(3, buf))
    TRY(3, of_edit, tlf_line_delete, EDIT, 1)
    TRY(3, of_edit, tlf_line_backspace, EDIT, 1)
    TRY(3, of_edit, tlf_line_kill_line, EDIT)
    TRY(3, of_edit, tlf_line_kill_buffer, EDIT)
    TRY(3, of_edit, tlf_line_discard_line, EDIT)
    TRY(3, of_edit, tlf_line_discard_buffer, EDIT)
    TRY(3, of_edit, tlf_line_transpose_chars, EDIT)
    TRY(3, of_edit, tlf_line_delete_prev_word, EDIT, TLF_WORD_VI, 1)
    TRY(3, of_edit, tlf_line_delete_word, EDIT, TLF_AT_START, TLF_WORD_VI, 1)
    TRY(3, of_edit, tlf_line_delete_to, EDIT, TLF_SEARCH_BACKWARD, 'b', 1)
    TRY(3, of_edit, tlf_line_edit_word, EDIT, TLF_ACTION_UPPERCASE)
    TRY(3, of_edit, tlf_line_transpose_words, EDIT, 1)
    TRY(4, of_edit, tlf_line_replace, EDIT, 0, 0, LENT(3, buf))
    TRY(3, of_edit, tlf_line_delete_range, EDIT, 0, 0)
    TRY(3, of_edit, tlf_line_kill, EDIT, TLF_MVT_WHOLE_BUFFER, 1, 0, 0, 0, 0)
    TRY(3, of_edit, tlf_line_indent, EDIT, TLF_MVT_WHOLE_BUFFER, 1, 0, 0, 0, 0, 2, 0)
}

static void motions(void)
{
    TRY(1, of_line, tlf_line_next_pos, TEXT, 1)
    TRY(1, of_line, tlf_line_copy, TEXT, TLF_MVT_WHOLE_BUFFER, 1, 0, 0, 0, 0)
    TRY(1, of_line, tlf_line_is_cursor_at_end, TEXT)
    TRY(1, of_line, tlf_line_is_end_of_input, TEXT)
    TRY(1, of_line, tlf_line_set_pos, TEXT, 0)
    TRY(1, of_line, tlf_line_move_forward, TEXT, 1)
    TRY(1, of_line, tlf_line_move_backward, TEXT, 1)
    TRY(1, of_line, tlf_line_move_buffer_start, TEXT)
    TRY(1, of_line, tlf_line_move_buffer_end, TEXT)
    TRY(1, of_line, tlf_line_move_home, TEXT)
    TRY(1, of_line, tlf_line_move_end, TEXT)
    TRY(1, of_line, tlf_line_move_to_prev_word, TEXT, TLF_WORD_EMACS, 1)
    TRY(1, of_line, tlf_line_move_to_next_word, TEXT, TLF_AT_AFTER_END, TLF_WORD_EMACS, 1)
    TRY(1, of_line, tlf_line_move_to_line_up, TEXT, 1, 2)
    TRY(1, of_line, tlf_line_move_to_line_down, TEXT, 1, 2)
    TRY(1, of_line, tlf_line_move_to, TEXT, TLF_SEARCH_FORWARD, 'x', 1)
}

static void log_and_undo(void)
{
    TRY(2, of_log, tlf_log_begin, LOG)
    TRY(2, of_log, tlf_log_end, LOG)
    TRY(2, of_log, tlf_log_insert, LOG, 0, 'a')
    TRY(3, of_log, tlf_log_insert_str, LOG, 0, LENT(2, buf))
    TRY(3, of_log, tlf_log_delete, LOG, 0, LENT(2, buf))
    TRY(4, of_log, tlf_log_replace, LOG, 0, LENT(2, buf), LENT(3, key))
    TRY(2, of_log, tlf_log_truncate, LOG, 0)
    TRY(2, of_log, tlf_log_last_insert, LOG)
    TRY(3, of_edit, tlf_log_undo, EDIT, 1)
    TRY(3, of_edit, tlf_log_redo, EDIT, 1)
    TRY(3, of_edit, tlf_log_cancel, EDIT, 0)
}

static void ring_and_keys(void)
{
    static const uint8_t keys[] = {'a', 0x01, 0x06, 0x0B, 0x15, 0x17, 0x19, 0x1F};
    TRY(2, of_ring, tlf_ring_reset, RING)
    TRY(3, of_ring, tlf_ring_kill, RING, LENT(2, buf), TLF_MODE_PREPEND)
    TRY(2, of_ring, tlf_ring_yank, RING)
    TRY(2, of_ring, tlf_ring_yank_pop, RING)
#define WHOLE LENT(0, text), LENT(1, records), LENT(2, texts), LENT(3, slots), LENT(4, lens), s.line, s.log, s.ring
    TRY(6, of_key, tlf_line_key, WHOLE, LENT(5, key))
    for (size_t i = 0; i < sizeof keys; i++) {
        TRY(5, of_key, tlf_line_key, WHOLE, keys + i, 1)
    }
}

static void texts_without_a_cursor(void)
{
    TRY(2, of_value, tlf_text_slip, LENT(0, buf), LENT(1, page))
}

int main(void)
{
    edits();
    motions();
    log_and_undo();
    ring_and_keys();
    texts_without_a_cursor();
    printf("buffers of length 0: %u rows, %u of them not refused, %u failed\n", rows, not_refused, failed);
    return failed != 0 || not_refused == 0;
}
