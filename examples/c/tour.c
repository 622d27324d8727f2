/*
 * A description is typed, a suggestion dismissed, words are killed and yanked, by calls and by keys, and all of it is
 * undone. Each step is printed with what it answered and with the text, a bar where the cursor is.
 */
#include "edit_line.h"

#include <stdio.h>

static void show(const struct edit_line *e, const char *step, uint32_t number)
{
    int before = (int)e->line.cursor, behind = (int)(e->line.len - e->line.cursor);
    const char *text = (const char *)e->text;
    printf("%-32s %-8s %.*s|%.*s\n", step, tlf_number_word(number), before, text, behind, text + before);
}

/* Types a text of ASCII. */
static void type(struct edit_line *e, const char *text)
{
    uint32_t number = TLF_DONE;
    for (const char *c = text; *c != '\0' && number == TLF_DONE; c++) {
        number = edited(e, tlf_line_insert(EDIT(e), (uint32_t)*c, 1));
    }
    show(e, "type", number);
}

/* Kills the word before the cursor into the ring; copy tells first what will be cut. */
static void kill_word(struct edit_line *e)
{
    uint8_t killed[TLF_TEXT_MAX];
    tlf_line_answer word = tlf_line_copy(TEXT(e), TLF_MVT_BACKWARD_WORD, 1, 0, TLF_WORD_EMACS, 0, 0);
    size_t n = word.to - word.from;
    memcpy(killed, e->text + word.from, n);
    uint32_t number = edited(e, tlf_line_kill(EDIT(e), TLF_MVT_BACKWARD_WORD, 1, 0, TLF_WORD_EMACS, 0, 0));
    if (number == TLF_DONE) {
        number = tlf_ring_kill(RING(e), killed, n, TLF_MODE_PREPEND).number;
    }
    show(e, "kill a word back", number);
    printf("    slots in use: %zu of %zu\n", e->ring.count, e->ring.size);
}

static void yank(struct edit_line *e)
{
    tlf_ring_answer r = tlf_ring_yank(RING(e));
    uint32_t number = r.number;
    if (number == TLF_DONE) {
        number = edited(e, tlf_line_yank(EDIT(e), slot_text(e, r.slot), slot_len(e, r.slot), 1));
    }
    show(e, "yank", number);
}

static void yank_pop(struct edit_line *e)
{
    tlf_ring_answer r = tlf_ring_yank_pop(RING(e));
    uint32_t number = r.number;
    if (number == TLF_DONE) {
        number = edited(e, tlf_line_yank_pop(EDIT(e), r.size, slot_text(e, r.slot), slot_len(e, r.slot)));
    }
    show(e, "the kill before it instead", number);
}

/* One key, a string without 0x00, and what it is called. */
static void key(struct edit_line *e, const char *name, const char *bytes)
{
    show(e, name, pressed(e, tlf_line_key(WHOLE(e), (const uint8_t *)bytes, strlen(bytes))));
}

int main(void)
{
    static struct edit_line whole;
    struct edit_line *e = &whole;
    start(e, "", 0, 0, 4);

    type(e, "parish register box 12");
    show(e, "back 2 words", moved(e, tlf_line_move_to_prev_word(TEXT(e), TLF_WORD_EMACS, 2)));
    show(e, "put a text in", edited(e, tlf_line_yank(EDIT(e), BYTES("of baptisms, "), 1)));

    puts("\nA suggestion is a group. Dismissed, it is as if it had never been.");
    tlf_log_answer begun = tlf_log_begin(LOG(e));
    show(e, "begin", logged(e, begun));
    show(e, "replace the first word", edited(e, tlf_line_replace(EDIT(e), 0, 6, BYTES("Saint Mary's"))));
    show(e, "cancel", edited(e, tlf_log_cancel(EDIT(e), begun.from)));
    printf("    group level: %zu\n", e->log.level);

    puts("\nA group that is kept is a single unit of undo.");
    show(e, "begin", logged(e, tlf_log_begin(LOG(e))));
    show(e, "to the start of the line", moved(e, tlf_line_move_home(TEXT(e))));
    show(e, "capitalize", edited(e, tlf_line_edit_word(EDIT(e), TLF_ACTION_CAPITALIZE)));
    show(e, "to the end of the line", moved(e, tlf_line_move_end(TEXT(e))));
    type(e, "a");
    show(e, "end", logged(e, tlf_log_end(LOG(e))));
    tlf_log_answer last = tlf_log_last_insert(LOG(e));
    printf("    last text put in: %.*s\n", (int)(last.to - last.from), (const char *)e->texts + last.from);
    show(e, "undo", edited(e, tlf_log_undo(EDIT(e), 1)));
    show(e, "redo", edited(e, tlf_log_redo(EDIT(e), 1)));

    puts("\nKills one after the other share a slot of the ring.");
    kill_word(e);
    kill_word(e);
    show(e, "reset", tlf_ring_reset(RING(e)).number);
    kill_word(e);
    yank(e);
    yank_pop(e);

    puts("\nA key does its call on the line and the ring's, both or neither.");
    key(e, "C-a", "\x01");
    key(e, "ESC d, a word into the ring", "\x1B" "d");
    key(e, "C-d, which is no kill", "\x04");
    key(e, "ESC 2 ESC f, two words on", "\x1B" "2\x1B" "f");
    key(e, "SP", " ");
    key(e, "C-y", "\x19");
    key(e, "ESC b", "\x1B" "b");
    key(e, "ESC l", "\x1B" "l");
    key(e, "C-g, which is no key", "\x07");
    key(e, "ESC 2 C-_, undo", "\x1B" "2\x1F");

    puts("\nA refusal changes nothing.");
    show(e, "put U+4E2D in", edited(e, tlf_line_insert(EDIT(e), 0x4E2D, 1)));
    show(e, "put 4,096 a in", edited(e, tlf_line_insert(EDIT(e), 'a', 4096)));
    show(e, "cursor to 1,000", moved(e, tlf_line_set_pos(TEXT(e), 1000)));
    show(e, "kill of movement 14", edited(e, tlf_line_kill(EDIT(e), 14, 1, 0, 0, 0, 0)));

    puts("\nUndo to the end.");
    uint32_t number;
    do {
        number = edited(e, tlf_log_undo(EDIT(e), 1));
        show(e, "undo", number);
    } while (number == TLF_DONE);
    return 0;
}
