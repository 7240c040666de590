/* Prints the five numbers of a record that is followed through its sheet: refusal, file, place, finished, tick. */
#include "caller.h"
#include "zumbeiry.h"

/* One byte more than the longest sheet and the longest record that are read: a longer file is refused like this one. */
static uint8_t sheet[16385];
static uint8_t record[65537];

int main(int count, char **arguments)
{
    if (count != 3) {
        fprintf(stderr, "usage: follow SHEET RECORD\n");
        return 2;
    }
    size_t sheet_length = read_file(arguments[1], sheet, sizeof sheet);
    size_t record_length = read_file(arguments[2], record, sizeof record);

    uint64_t answer[5];
    uint32_t refusal = zumbeiry_follow(sheet, sheet_length, record, record_length, answer, 5);
    printf("%" PRIu64 " %" PRIu64 " %" PRIu64 " %" PRIu64 " %" PRIu64 "\n",
           answer[0], answer[1], answer[2], answer[3], answer[4]);
    return refusal == 0 ? 0 : 1;
}
