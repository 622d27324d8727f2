/*
 * Runs entries at their heaviest on a painted stack, for tools/stack. Prints a line for each: its name, and the bytes
 * from its return address down to the lowest one that it wrote. x86-64 and glibc.
 */
#include "edit_line.h"

#include <stdio.h>
#include <stdlib.h>
#include <ucontext.h>

#define PAINT 0xA5

static uint8_t stack[1 << 18];
static ucontext_t here, there;
static struct edit_line whole;
static struct edit_line *const e = &whole;

/* The entry that `noted` goes on to with the parameters that it was called with, and where the stack stood then. */
void (*noted_entry)(void);
uint8_t *noted_top;
void noted(void);
__asm__(".globl noted\n"
        "noted: mov %rsp, noted_top(%rip)\n"
        "       jmp *noted_entry(%rip)\n");

#define NOTED(entry) (noted_entry = (void (*)(void))(entry), (__typeof__(&(entry)))noted)

/* Runs `call`, which calls an entry by NOTED, alone on the stack. Answers how deep the entry went. */
static size_t depth(void (*call)(void))
{
    memset(stack, PAINT, sizeof stack);
    noted_top = NULL;
    if (getcontext(&there) != 0) {
        exit(2);
    }
    there.uc_stack.ss_sp = stack;
    there.uc_stack.ss_size = sizeof stack;
    there.uc_link = &here;
    makecontext(&there, call, 0);
    if (swapcontext(&here, &there) != 0 || noted_top == NULL) {
        exit(2);
    }
    const uint8_t *lowest = stack;
    while (*lowest == PAINT) {
        lowest++;
    }
    return (size_t)(noted_top + sizeof(void *) - lowest);
}

/* An entry that did nothing was not at its heaviest. */
static void must(const char *name, uint32_t number)
{
    if (number != TLF_DONE) {
        fprintf(stderr, "stack.c: %s: %s\n", name, tlf_number_word(number));
        exit(2);
    }
}

#define CALL(name, number) \
    static void call_##name(void) \
    { \
        must(#name, number); \
    }
CALL(line_update, edited(e, NOTED(tlf_line_update)(EDIT(e), BYTES("box"), 3)))
CALL(line_insert, edited(e, NOTED(tlf_line_insert)(EDIT(e), 'a', 9)))
CALL(line_yank, edited(e, NOTED(tlf_line_yank)(EDIT(e), BYTES("box 12"), 9)))
CALL(line_yank_pop, edited(e, NOTED(tlf_line_yank_pop)(EDIT(e), 3, BYTES("box 12"))))
CALL(line_replace, edited(e, NOTED(tlf_line_replace)(EDIT(e), 0, 2, BYTES("box 12"))))
CALL(line_backspace, edited(e, NOTED(tlf_line_backspace)(EDIT(e), 3)))
CALL(line_kill, edited(e, NOTED(tlf_line_kill)(EDIT(e), TLF_MVT_BACKWARD_WORD, 2, 0, TLF_WORD_VI, 0, 0)))
CALL(line_indent, edited(e, NOTED(tlf_line_indent)(EDIT(e), TLF_MVT_WHOLE_BUFFER, 1, 0, 0, 0, 0, 1, 0)))
CALL(line_transpose_words, edited(e, NOTED(tlf_line_transpose_words)(EDIT(e), 1)))
CALL(line_transpose_chars, edited(e, NOTED(tlf_line_transpose_chars)(EDIT(e))))
CALL(line_edit_word, edited(e, NOTED(tlf_line_edit_word)(EDIT(e), TLF_ACTION_UPPERCASE)))
CALL(line_copy, moved(e, NOTED(tlf_line_copy)(TEXT(e), TLF_MVT_LINE_UP, 2, 0, 0, 0, 0)))
CALL(line_move_to_line_up, moved(e, NOTED(tlf_line_move_to_line_up)(TEXT(e), 3, 9)))
CALL(log_end, logged(e, NOTED(tlf_log_end)(LOG(e))))
CALL(log_undo, edited(e, NOTED(tlf_log_undo)(EDIT(e), UINT16_MAX)))
CALL(log_redo, edited(e, NOTED(tlf_log_redo)(EDIT(e), UINT16_MAX)))
CALL(log_cancel, edited(e, NOTED(tlf_log_cancel)(EDIT(e), 0)))
CALL(ring_kill, NOTED(tlf_ring_kill)(RING(e), BYTES("box 12"), TLF_MODE_PREPEND).number)

static const char *bytes;
CALL(line_key, pressed(e, NOTED(tlf_line_key)(WHOLE(e), (const uint8_t *)bytes, strlen(bytes))))

static uint8_t page[61 * TLF_TEXT_MAX];
CALL(text_slip, NOTED(tlf_text_slip)(e->text, sizeof e->text, page, sizeof page).number)

#define MEASURE(name) ((void)printf("tlf_%s %zu\n", #name, depth(call_##name)))

/* A group with as many records as the log has room for, made by turns at both ends of the text. */
static void fill_log(void)
{
    uint32_t number = TLF_DONE;
    must("begin", logged(e, tlf_log_begin(LOG(e))));
    for (size_t i = 0; number == TLF_DONE; i++) {
        size_t place = i % 2 == 0 ? 0 : e->line.len - 1;
        number = edited(e, tlf_line_replace(EDIT(e), place, place + 1, BYTES("b")));
    }
    if (number != TLF_LOG_FULL) {
        must("replace", number);
    }
}

int main(void)
{
    enum { FULL = TLF_TEXT_MAX, ROOM = FULL / 2 };
    static char text[FULL], lines[FULL];
    memset(text, 'a', FULL);
    text[FULL / 4] = ' ';
    memcpy(lines, text, FULL);
    for (size_t i = 0; i < FULL; i += 16) {
        lines[i] = '\n';
    }

#define ON(name, s, cursor) (start(e, s, FULL - ROOM, cursor, 2), MEASURE(name))
    ON(line_update, text, 0);
    ON(line_insert, text, 9);
    ON(line_yank, text, 9);
    ON(line_yank_pop, text, 9);
    ON(line_replace, text, 9);
    ON(line_backspace, text, FULL - ROOM);
    ON(line_kill, text, FULL - ROOM);
    ON(line_indent, lines, 9);
    ON(line_transpose_words, text, FULL - ROOM);
    ON(line_transpose_chars, text, FULL / 4);
    ON(line_edit_word, text, 0);
    ON(line_copy, lines, 99);
    ON(line_move_to_line_up, lines, 99);
    ON(ring_kill, text, 0);

    start(e, text, FULL - ROOM, 0, 2);
    must("begin", logged(e, tlf_log_begin(LOG(e))));
    must("insert", edited(e, tlf_line_insert(EDIT(e), 'a', 1)));
    MEASURE(log_end);

    start(e, lines, FULL, 0, 2);
    MEASURE(text_slip);

    start(e, text, FULL, 0, 2);
    fill_log();
    MEASURE(log_cancel);
    fill_log();
    MEASURE(log_undo);
    MEASURE(log_redo);

    /* A key is as deep as its calls: the deepest of some, the last with a full log to undo. */
    static const char *const keys[] = {"a",        "\x02",     "\x1B" "b", "\x1B" "f", "\x14", "\x1B" "t",
                                       "\x1B" "u", "\x15",     "\x1B" "d", "\x17",     "\x19", "\x1B" "9\x19",
                                       "\x04",     "\x1B" "65535\x1F"};
    size_t last = sizeof keys / sizeof keys[0] - 1, deepest = 0;
    for (size_t i = 0; i <= last; i++) {
        start(e, text, FULL - ROOM, FULL / 4, 2);
        must("ring_kill", tlf_ring_kill(RING(e), BYTES("box 12"), TLF_MODE_APPEND).number);
        if (i == last) {
            fill_log();
        }
        bytes = keys[i];
        size_t deep = depth(call_line_key);
        deepest = deep > deepest ? deep : deepest;
    }
    printf("tlf_line_key %zu\n", deepest);
    return 0;
}
