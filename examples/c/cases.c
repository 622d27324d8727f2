/*
 * Document 01's cases, P1 to P13 and the others, some of order 1's keys and of order 2's slips, and the numbers' words,
 * through the static library. A row has the case, the text and the cursor, the call, and what it must answer. Prints the
 * rows that fail, and how many there are.
 */
#include "edit_line.h"

#include <stdbool.h>
#include <stdio.h>

static unsigned rows, failed;

static void row(const char *name, bool as_said)
{
    rows++;
    if (!as_said) {
        failed++;
        printf("%s: fails\n", name);
    }
}

static bool holds(const uint8_t *bytes, size_t len, const char *text, size_t n)
{
    return len == n && memcmp(bytes, text, len) == 0;
}

/* Shows what was answered where it is not what was wanted. */
static bool wanted(bool as_said, uint32_t number, size_t from, size_t to, size_t cursor)
{
    if (!as_said) {
        printf("answered %u, places %zu and %zu, cursor %zu; ", (unsigned)number, from, to, cursor);
    }
    return as_said;
}

/* Number, places and cursor of a call that is lent a text of n bytes, which stay. */
static bool says(const struct edit_line *e, const char *text, size_t n, tlf_line_answer a, uint32_t number, size_t from,
                 size_t to, size_t cursor)
{
    bool same = a.number == number && a.from == from && a.to == to && a.line.cursor == cursor;
    return wanted(same && holds(e->text, a.line.len, text, n), a.number, a.from, a.to, a.line.cursor);
}

/* Number, text and cursor of an edit that answers no places. */
static bool leaves(struct edit_line *e, tlf_edit_answer a, uint32_t number, const char *text, size_t n, size_t cursor)
{
    edited(e, a);
    bool same = a.number == number && a.from == 0 && a.to == 0 && a.line.cursor == cursor;
    return wanted(same && holds(e->text, a.line.len, text, n), a.number, a.from, a.to, a.line.cursor);
}

#define MOVE(name, s, at, call, number, cursor) \
    (start(e, s, sizeof (s) - 1, at, 0), row(name, says(e, s, sizeof (s) - 1, call, number, 0, 0, cursor)))
#define COPY(name, s, at, call, number, from, to) \
    (start(e, s, sizeof (s) - 1, at, 0), row(name, says(e, s, sizeof (s) - 1, call, number, from, to, at)))
#define CHANGE(name, s, at, call, number, left, cursor) \
    (start(e, s, sizeof (s) - 1, at, 0), row(name, leaves(e, call, number, left, sizeof (left) - 1, cursor)))
/* The text that the line has come to. */
#define HAS(name, left) row(name, holds(e->text, e->line.len, left, sizeof (left) - 1))

static void motions(struct edit_line *e)
{
    MOVE("P1, forward 1", "e\xCC\x81x", 0, tlf_line_move_forward(TEXT(e), 1), 0, 3);
    MOVE("P1, forward 5", "e\xCC\x81x", 0, tlf_line_move_forward(TEXT(e), 5), 0, 4);
    MOVE("P2, from 1", "a\r\nb", 1, tlf_line_move_forward(TEXT(e), 1), 0, 3);
    MOVE("P2, from 2", "a\r\nb", 2, tlf_line_move_forward(TEXT(e), 1), 0, 3);
    MOVE("P2, forward 0", "a\r\nb", 1, tlf_line_move_forward(TEXT(e), 0), 1, 1);
    MOVE("P3, from 10", "parish box", 10, tlf_line_move_to_prev_word(TEXT(e), TLF_WORD_EMACS, 1), 0, 7);
    MOVE("P3, from 7", "parish box", 7, tlf_line_move_to_prev_word(TEXT(e), TLF_WORD_EMACS, 1), 0, 0);
    MOVE("P4, Emacs Start", "parish box", 0,
         tlf_line_move_to_next_word(TEXT(e), TLF_AT_START, TLF_WORD_EMACS, 1), 0, 7);
    MOVE("P4, Emacs AfterEnd", "parish box", 0,
         tlf_line_move_to_next_word(TEXT(e), TLF_AT_AFTER_END, TLF_WORD_EMACS, 1), 0, 6);
    MOVE("P4, Vi BeforeEnd", "parish box", 0,
         tlf_line_move_to_next_word(TEXT(e), TLF_AT_BEFORE_END, TLF_WORD_VI, 1), 0, 5);
    MOVE("P5, Emacs AfterEnd", "parish box", 0,
         tlf_line_move_to_next_word(TEXT(e), TLF_AT_AFTER_END, TLF_WORD_EMACS, 0), 0, 10);
    MOVE("P5, Vi Start", "parish box", 0,
         tlf_line_move_to_next_word(TEXT(e), TLF_AT_START, TLF_WORD_VI, 0), 1, 0);
    MOVE("P6, n 2", "banana", 1, tlf_line_move_to(TEXT(e), TLF_SEARCH_FORWARD, 'a', 2), 0, 5);
    MOVE("P6, n 9", "banana", 1, tlf_line_move_to(TEXT(e), TLF_SEARCH_FORWARD, 'a', 9), 0, 5);
    MOVE("P6, n 0", "banana", 1, tlf_line_move_to(TEXT(e), TLF_SEARCH_FORWARD, 'a', 0), 1, 1);
    COPY("P7", "a\nb\nc", 2, tlf_line_copy(TEXT(e), TLF_MVT_LINE_DOWN, 1, 0, 0, 0, 0), 0, 1, 5);
    MOVE("P8", "ab\nc\nlong", 9, tlf_line_move_to_line_up(TEXT(e), 2, 0), 0, 4);
    COPY("ViFirstPrint", "   abc", 1, tlf_line_copy(TEXT(e), TLF_MVT_VI_FIRST_PRINT, 0, 0, 0, 0, 0), 5, 0, 0);
    MOVE("prompt 1,024, up", "a\nb", 3, tlf_line_move_to_line_up(TEXT(e), 1, TLF_PROMPT_MAX), 0, 0);
    MOVE("prompt 1,025, up", "a\nb", 3, tlf_line_move_to_line_up(TEXT(e), 1, TLF_PROMPT_MAX + 1), 7, 3);
    MOVE("prompt 1,024, down", "a\nb", 0, tlf_line_move_to_line_down(TEXT(e), 1, TLF_PROMPT_MAX), 0, 3);
    MOVE("prompt 1,025, down", "a\nb", 0, tlf_line_move_to_line_down(TEXT(e), 1, TLF_PROMPT_MAX + 1), 7, 0);
}

static void edits(struct edit_line *e)
{
    static char full[TLF_TEXT_MAX + 1];
    memset(full, 'a', TLF_TEXT_MAX);
    CHANGE("P9", "stra\xC3\x9F" "e", 0, tlf_line_edit_word(EDIT(e), TLF_ACTION_UPPERCASE), 0, "STRASSE", 7);
    CHANGE("P10", "box parish", 10, tlf_line_transpose_words(EDIT(e), 1), 0, "parish box", 10);
    CHANGE("a text of 4,096 bytes", full, TLF_TEXT_MAX, tlf_line_insert(EDIT(e), 'a', 1), 9, full, TLF_TEXT_MAX);
    start(e, full, TLF_TEXT_MAX - 1, TLF_TEXT_MAX - 1, 0);
    row("a text of 4,095 bytes",
        leaves(e, tlf_line_insert(EDIT(e), 'a', 1), 0, full, TLF_TEXT_MAX, TLF_TEXT_MAX) &&
        leaves(e, tlf_line_insert(EDIT(e), 'a', 1), 9, full, TLF_TEXT_MAX, TLF_TEXT_MAX));
    CHANGE("dedent 1", "\xC2\xA0" "a", 0, tlf_line_indent(EDIT(e), TLF_MVT_WHOLE_LINE, 0, 0, 0, 0, 0, 1, 1), 6,
           "\xC2\xA0" "a", 0);
}

static bool type(struct edit_line *e, const char *text)
{
    uint32_t worst = TLF_DONE;
    for (; *text != '\0'; text++) {
        worst |= edited(e, tlf_line_insert(EDIT(e), (uint32_t)*text, 1));
    }
    return worst == TLF_DONE;
}

static void undo(struct edit_line *e)
{
    static const char records[] = "\3\0\0\2\0" "\3\2\0\2\0";
    start(e, "", 0, 0, 0);
    row("P11, typed", type(e, "ab c"));
    row("P11, two records", holds(e->records, e->log.undo.records, records, sizeof records - 1));
    row("P11, their texts", holds(e->texts, e->log.undo.texts, "ab c", 4));
    row("P11, undo 1", edited(e, tlf_log_undo(EDIT(e), 1)) == 0);
    HAS("P11, undone", "ab");
}

/* P12: what becomes of the group that was begun first decides what undo takes. */
static void group(struct edit_line *e, bool cancel)
{
    start(e, "", 0, 0, 0);
    row("P12, q", type(e, "q"));
    tlf_log_answer begun = tlf_log_begin(LOG(e));
    row("P12, the mark", logged(e, begun) == 0 && begun.from == 1);
    row("P12, truncate or cancel", 0 == (cancel ? edited(e, tlf_log_cancel(EDIT(e), begun.from))
                                                : logged(e, tlf_log_truncate(LOG(e), begun.from))));
    row("P12, begin", logged(e, tlf_log_begin(LOG(e))) == 0);
    row("P12, r", type(e, "r"));
    row("P12, end", logged(e, tlf_log_end(LOG(e))) == 0);
    row("P12, undo 1", edited(e, tlf_log_undo(EDIT(e), 1)) == 0);
}

static void groups(struct edit_line *e)
{
    group(e, false);
    HAS("P12, truncate", "");
    group(e, true);
    HAS("P12, cancel", "q");
}

static bool gives(const struct edit_line *e, tlf_ring_answer a, size_t size, const char *text)
{
    return a.number == 0 && a.size == size && holds(slot_text(e, a.slot), slot_len(e, a.slot), text, strlen(text));
}

static void ring(struct edit_line *e)
{
    start(e, "", 0, 0, 2);
    for (const char *text = "abc"; *text != '\0'; text++) {
        row("P13, kill", tlf_ring_kill(RING(e), (const uint8_t *)text, 1, TLF_MODE_APPEND).number == 0);
        row("P13, reset", tlf_ring_reset(RING(e)).number == 0);
    }
    row("P13, yank", gives(e, tlf_ring_yank(RING(e)), 0, "c"));
    row("P13, pop", gives(e, tlf_ring_yank_pop(RING(e)), 1, "b"));
    row("P13, pop again", gives(e, tlf_ring_yank_pop(RING(e)), 1, "c"));
}

/* The text and the cursor that a key leaves, and what stands in slot 0 of a ring of 1, which had killed q. */
static bool presses(struct edit_line *e, const char *bytes, uint32_t number, const char *text, size_t cursor,
                    const char *slot, size_t action)
{
    tlf_key_answer a = tlf_line_key(WHOLE(e), (const uint8_t *)bytes, strlen(bytes));
    (void)pressed(e, a);
    bool same = a.number == number && a.line.cursor == cursor && a.ring.action == action &&
                holds(slot_text(e, 0), slot_len(e, 0), slot, strlen(slot));
    return wanted(same && holds(e->text, a.line.len, text, strlen(text)), a.number, a.from, a.to, a.line.cursor);
}

#define KEY(name, s, at, bytes, number, left, cursor, slot, action) \
    (start(e, s, sizeof (s) - 1, at, 1), (void)tlf_ring_kill(RING(e), BYTES("q"), TLF_MODE_APPEND), \
     row(name, presses(e, bytes, number, left, cursor, slot, action)))

static void keys(struct edit_line *e)
{
    KEY("x", "abc", 2, "x", 0, "abxc", 3, "q", TLF_LAST_OTHER);
    KEY("ESC 3 x", "a", 1, "\x1B" "3x", 0, "axxx", 4, "q", TLF_LAST_OTHER);
    KEY("a mark", "e", 1, "\xCC\x81", 0, "e\xCC\x81", 3, "q", TLF_LAST_OTHER);
    KEY("C-a", "ab\ncd", 5, "\x01", 0, "ab\ncd", 3, "q", TLF_LAST_OTHER);
    KEY("ESC 0 ESC f", "a b c", 2, "\x1B" "0\x1B" "f", 0, "a b c", 5, "q", TLF_LAST_OTHER);
    KEY("ESC, a long count, C-f", "abc", 0, "\x1B" "99999999999\x06", 0, "abc", 3, "q", TLF_LAST_OTHER);
    KEY("C-k", "ab\nc", 1, "\x0B", 0, "a\nc", 1, "qb", TLF_LAST_KILL);
    KEY("C-k, nothing", "ab", 2, "\x0B", 1, "ab", 2, "q", TLF_LAST_KILL);
    KEY("C-u", "ab\r\ncd", 4, "\x15", 0, "abcd", 2, "\r\nq", TLF_LAST_KILL);
    KEY("ESC 2 C-w", "a b c", 5, "\x1B" "2\x17", 0, "a ", 2, "b cq", TLF_LAST_KILL);
    KEY("ESC d", "ab cd", 2, "\x1B" "d", 0, "ab", 2, "q cd", TLF_LAST_KILL);
    KEY("ESC 2 C-y", "ab", 1, "\x1B" "2\x19", 0, "aqqb", 3, "q", TLF_LAST_YANK);
    KEY("ESC y, no yank before", "ab", 1, "\x1B" "y", 1, "ab", 1, "q", TLF_LAST_KILL);
    KEY("ESC t, one word", "one", 0, "\x1B" "t", 1, "one", 3, "q", TLF_LAST_OTHER);
    KEY("C-_, nothing", "ab", 2, "\x1F", 1, "ab", 2, "q", TLF_LAST_OTHER);
    KEY("no bytes", "ab", 2, "", 13, "ab", 2, "q", TLF_LAST_KILL);
    KEY("C-g", "ab", 2, "\x07", 13, "ab", 2, "q", TLF_LAST_KILL);
    KEY("ESC 1 2", "ab", 2, "\x1B" "12", 13, "ab", 2, "q", TLF_LAST_KILL);
    KEY("ESC B", "ab", 2, "\x1B" "B", 13, "ab", 2, "q", TLF_LAST_KILL);
    KEY("two keys", "ab", 2, "xy", 13, "ab", 2, "q", TLF_LAST_KILL);
    KEY("a character cut short", "ab", 2, "\xC3", 4, "ab", 2, "q", TLF_LAST_KILL);
    KEY("ESC U+00B5", "ab", 2, "\x1B\xC2\xB5", 4, "ab", 2, "q", TLF_LAST_KILL);
}

/* Number, value and page of a slip, whose lines are given without their padding, of ASCII. No other byte changes. */
static bool lays(const char *text, size_t n, size_t page_len, uint32_t number, const char *const *lines, size_t count)
{
    static uint8_t page[512], due[512];
    memset(page, 0x9F, sizeof page);
    memset(due, 0x9F, sizeof due);
    for (size_t i = 0; i < count; i++) {
        memset(due + 61 * i, ' ', 60);
        memcpy(due + 61 * i, lines[i], strlen(lines[i]));
        due[61 * i + 60] = '\n';
    }
    tlf_value_answer a = tlf_text_slip((const uint8_t *)text, n, page, page_len);
    bool same = a.number == number && a.value == 61 * count && memcmp(page, due, sizeof page) == 0;
    return wanted(same, a.number, a.value, 0, 0);
}

#define LINES(...) ((const char *const[]){__VA_ARGS__}), sizeof (const char *const[]){__VA_ARGS__} / sizeof (char *)
#define NO_LINES NULL, 0
#define SLIP(name, s, page_len, number, ...) row(name, lays(s, sizeof (s) - 1, page_len, number, __VA_ARGS__))
#define X58 "xxxxxxxxxxxxxxxxxxxxxxxxxxxxxxxxxxxxxxxxxxxxxxxxxxxxxxxxxx"

static void slips(void)
{
    static char long_text[TLF_TEXT_MAX + 2];
    memset(long_text, 'a', TLF_TEXT_MAX + 1);
    SLIP("an empty text", "", 0, 0, NO_LINES);
    SLIP("a page as long as the slip", "deeds", 61, 0, LINES("deeds"));
    SLIP("a page one byte short", "deeds", 60, 14, NO_LINES);
    SLIP("a \\n at the end", "deeds\r\n", 512, 0, LINES("deeds"));
    SLIP("a blank line", "a\n\nb", 512, 0, LINES("a", "", "b"));
    SLIP("white space behind the last \\n", "a\n ", 512, 0, LINES("a", ""));
    SLIP("white space between words", "a\t b\xC2\xA0" "c\rd", 512, 0, LINES("a b c d"));
    SLIP("58 columns and a word", X58 " a", 512, 0, LINES(X58 " a"));
    SLIP("59 columns and a word", X58 "x a", 512, 0, LINES(X58 "x", "a"));
    SLIP("a word of 60 columns", X58 "xx a", 512, 0, LINES(X58 "xx", "a"));
    SLIP("a word over 60 columns", "a " X58 "xxx b", 512, 0, LINES("a", X58 "xx", "x b"));
    SLIP("a mark behind a space", "e \xCC\x81" "f", 512, 0, LINES("e f"));
    SLIP("U+00B5 before a page that is full", "a\xC2\xB5", 0, 4, NO_LINES);
    SLIP("4,097 bytes", long_text, 512, 2, NO_LINES);
}

static void words(void)
{
    static const char *const all[] = {"done", "nothing", "sizes", "code", "foreign", "place", "split", "prompt",
                                      "damaged", "full", "log full", "ring full", "misfit", "unbound",
                                      "page full", "unknown"};
    for (uint32_t number = 0; number < sizeof all / sizeof all[0]; number++) {
        row(all[number], strcmp(tlf_number_word(number), all[number]) == 0);
    }
    row("the word of the last number", strcmp(tlf_number_word(UINT32_MAX), "unknown") == 0);
}

int main(void)
{
    static struct edit_line whole;
    motions(&whole);
    edits(&whole);
    undo(&whole);
    groups(&whole);
    ring(&whole);
    keys(&whole);
    slips();
    words();
    printf("document 01's, order 1's and order 2's cases: %u rows, %u failed\n", rows, failed);
    return failed != 0;
}
