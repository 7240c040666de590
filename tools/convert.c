/*
 * Prints the three numbers of a text that is converted (refusal, place, bytes written) on standard error, and writes the bytes of its
 * sheet to standard output. A number behind the text is the length of the buffer, at most the one that is lent without it.
 */
#include "caller.h"
#include "zumbeiry.h"

/* The call takes a text of any length; this program takes one of less than this. */
static uint8_t text[1 << 20];
static uint8_t sheet[16384];

int main(int count, char **arguments)
{
    if (count != 2 && count != 3) {
        fprintf(stderr, "usage: convert TEXT [BYTES]\n");
        return 2;
    }
    size_t text_length = read_file(arguments[1], text, sizeof text);
    if (text_length == sizeof text) {
        fprintf(stderr, "%s: a text of %zu bytes or more is not read\n", arguments[1], text_length);
        return 2;
    }
    size_t sheet_length = count == 3 ? length_of(arguments[2], sizeof sheet) : sizeof sheet;
    uint64_t answer[3];
    zumbeiry_convert(text, text_length, sheet, sheet_length, answer, 3);
    return put_output(answer, sheet);
}
