/*
 * Prints the three numbers of a sheet that is printed (refusal, place, bytes written) on standard error, and its text on standard output.
 * A number behind the sheet is the length of the buffer, at most the one that is lent without it.
 */
#include "caller.h"
#include "zumbeiry.h"

/* One byte more than the longest sheet that is printed: a longer file is refused like this one. */
static uint8_t sheet[16385];
static uint8_t text[98304];

int main(int count, char **arguments)
{
    if (count != 2 && count != 3) {
        fprintf(stderr, "usage: print SHEET [BYTES]\n");
        return 2;
    }
    size_t sheet_length = read_file(arguments[1], sheet, sizeof sheet);
    size_t text_length = count == 3 ? length_of(arguments[2], sizeof text) : sizeof text;
    uint64_t answer[3];
    zumbeiry_print(sheet, sheet_length, text, text_length, answer, 3);
    return put_output(answer, text);
}
