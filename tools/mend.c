/*
 * Prints the four numbers of a sheet that is mended (refusal, place, bytes written, numbers listed), and a line of kind and offset
 * for each change. Two numbers behind the sheet are the lengths of the buffers, at most those that are lent without them.
 */
#include "caller.h"
#include "zumbeiry.h"

/* One byte more than the longest sheet that is mended: a longer file is refused like this one. */
static uint8_t sheet[16385];
static uint8_t mended[16384];
static uint32_t changes[1024];

int main(int count, char **arguments)
{
    if (count != 2 && count != 4) {
        fprintf(stderr, "usage: mend SHEET [BYTES NUMBERS]\n");
        return 2;
    }
    size_t sheet_length = read_file(arguments[1], sheet, sizeof sheet);
    size_t mended_length = sizeof mended, changes_length = sizeof changes / sizeof *changes;
    if (count == 4) {
        mended_length = length_of(arguments[2], mended_length);
        changes_length = length_of(arguments[3], changes_length);
    }
    uint64_t answer[4];
    uint32_t refusal = zumbeiry_mend(sheet, sheet_length, mended, mended_length, changes, changes_length, answer, 4);
    printf("%" PRIu64 " %" PRIu64 " %" PRIu64 " %" PRIu64 "\n", answer[0], answer[1], answer[2], answer[3]);
    for (uint64_t at = 0; at < answer[3]; at += 2)
        printf("%" PRIu32 " %" PRIu32 "\n", changes[at], changes[at + 1]);
    return refusal == 0 ? 0 : 1;
}
