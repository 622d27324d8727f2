/* An edit line with its buffers at their largest, and what the programs here share. */
#ifndef EDIT_LINE_H
#define EDIT_LINE_H

#include "tulofewa.h"

#include <string.h>

struct edit_line {
    uint8_t text[TLF_TEXT_MAX];
    uint8_t records[TLF_RECORDS_MAX];
    uint8_t texts[TLF_TEXTS_MAX];
    uint8_t slots[TLF_SLOTS_MAX * TLF_TEXT_MAX];
    uint8_t lens[TLF_SLOTS_MAX * 2];
    tlf_line line;
    tlf_log log;
    tlf_ring ring;
};

/* What the entries are lent, in the header's order: motions a TEXT, edits and undo an EDIT, the log's calls a LOG, a
 * key the WHOLE. */
#define TEXT(e) (e)->text, sizeof (e)->text, (e)->line
#define EDIT(e) \
    (e)->text, sizeof (e)->text, (e)->records, sizeof (e)->records, (e)->texts, sizeof (e)->texts, (e)->line, (e)->log
#define LOG(e) (e)->records, sizeof (e)->records, (e)->texts, sizeof (e)->texts, (e)->log
#define RING(e) (e)->slots, sizeof (e)->slots, (e)->lens, sizeof (e)->lens, &(e)->ring
#define WHOLE(e) \
    (e)->text, sizeof (e)->text, (e)->records, sizeof (e)->records, (e)->texts, sizeof (e)->texts, \
    (e)->slots, sizeof (e)->slots, (e)->lens, sizeof (e)->lens, (e)->line, (e)->log, (e)->ring

/* A string literal as a text to put in. */
#define BYTES(s) (const uint8_t *)(s), sizeof (s) - 1

/* The state of an answer is kept, whatever its number. */
static inline uint32_t moved(struct edit_line *e, tlf_line_answer a)
{
    e->line = a.line;
    return a.number;
}

static inline uint32_t edited(struct edit_line *e, tlf_edit_answer a)
{
    e->line = a.line;
    e->log = a.log;
    return a.number;
}

static inline uint32_t logged(struct edit_line *e, tlf_log_answer a)
{
    e->log = a.log;
    return a.number;
}

static inline uint32_t pressed(struct edit_line *e, tlf_key_answer a)
{
    e->line = a.line;
    e->log = a.log;
    e->ring = a.ring;
    return a.number;
}

/* A line with a text of n bytes, which is no more than TLF_TEXT_MAX, an empty log and an empty ring. */
static inline void start(struct edit_line *e, const char *text, size_t n, size_t cursor, size_t ring_size)
{
    memcpy(e->text, text, n);
    e->line = (tlf_line){.len = n, .cursor = cursor};
    e->log = tlf_log_new();
    (void)tlf_ring_new(&e->ring, ring_size);
}

/* The text of a slot, and its length. */
static inline const uint8_t *slot_text(const struct edit_line *e, size_t slot)
{
    return e->slots + TLF_TEXT_MAX * slot;
}

static inline size_t slot_len(const struct edit_line *e, size_t slot)
{
    return e->lens[2 * slot] | (size_t)e->lens[2 * slot + 1] << 8;
}

#endif
