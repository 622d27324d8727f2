#include "tulofewa.h"

static uint8_t text[TLF_TEXT_MAX], records[TLF_RECORDS_MAX], texts[TLF_TEXTS_MAX];
#define LENT text, sizeof text, records, sizeof records, texts, sizeof texts

int main(void)
{
    tlf_edit_answer a = tlf_line_yank(LENT, (tlf_line){0}, tlf_log_new(), (const uint8_t *)"box 12", 6, 1);
    a = tlf_line_backspace(LENT, a.line, a.log, 2);    /* "box " */
    a = tlf_log_undo(LENT, a.line, a.log, 1);          /* "box 12" */
    a = tlf_log_undo(LENT, a.line, a.log, UINT16_MAX); /* to the end: the first text, "" */
    return a.number == TLF_DONE && a.line.len == 0 ? 0 : 1;
}
