/* Prints the five numbers of the sheet in the file that is named: refusal, place, steps, low, high. */
#include "zumbeiry.h"

#include <inttypes.h>
#include <stdio.h>

/* One byte more than the longest sheet that is read: a longer file is refused like this one. */
static uint8_t sheet[16385];
static int32_t work[12000];

int main(int count, char **arguments)
{
    FILE *file = count == 2 ? fopen(arguments[1], "rb") : NULL;
    if (file == NULL) {
        fprintf(stderr, "usage: call FILE\n");
        return 2;
    }
    size_t length = fread(sheet, 1, sizeof sheet, file);
    if (ferror(file)) {
        perror(arguments[1]);
        return 2;
    }
    fclose(file);

    uint64_t answer[5];
    uint32_t refusal = zumbeiry_check(sheet, length, work, 12000, answer, 5);
    printf("%" PRIu64 " %" PRIu64 " %" PRIu64 " %" PRIu64 " %" PRIu64 "\n",
           answer[0], answer[1], answer[2], answer[3], answer[4]);
    return refusal == 0 ? 0 : 1;
}
