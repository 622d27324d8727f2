/*
 * Prints the slip of the text on standard input, in lines of 60 columns for a box lid. Exit status: 0; 1 where the text
 * is refused, whose word it then says, or where it could not be read or the slip not be written.
 */
#include "tulofewa.h"

#include <stdio.h>

static uint8_t text[TLF_TEXT_MAX + 1];  /* with a byte more, a text that is too long is seen and refused */
static uint8_t page[61 * TLF_TEXT_MAX]; /* as long as any slip */

int main(void)
{
    size_t n = fread(text, 1, sizeof text, stdin);
    if (ferror(stdin)) {
        perror("slip");
        return 1;
    }
    tlf_value_answer a = tlf_text_slip(text, n, page, sizeof page);
    if (a.number != TLF_DONE) {
        fprintf(stderr, "slip: %s\n", tlf_number_word(a.number));
        return 1;
    }
    if (fwrite(page, 1, a.value, stdout) != a.value || fflush(stdout) != 0) {
        perror("slip");
        return 1;
    }
    return 0;
}
