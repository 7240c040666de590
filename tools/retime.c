/*
 * Prints the five numbers that new times on a statement would give: refusal, place, steps, low, high. With the word write behind them
 * it makes the change instead: the changed sheet goes to standard output, and to standard error refusal, place, thread, statement,
 * old times and new times. With these last six and the word back it takes the change back: the sheet before it goes to standard output,
 * refusal and place to standard error.
 */
#include "caller.h"
#include "zumbeiry.h"

#include <string.h>

/* One byte more than the longest sheet that is read: a longer file is refused like this one. */
static uint8_t sheet[16385];
static uint8_t copy[16385];
static int32_t work[12000];

/* The number that decimal digits give; the program ends if it does not fit 64 bits, or if there is something else. */
static uint64_t number_of(const char *digits)
{
    uint64_t number = 0;
    for (const char *at = digits; at == digits || *at != '\0'; at++) {
        uint64_t digit = (uint64_t)*at - '0';
        if (*at < '0' || *at > '9' || number > (UINT64_MAX - digit) / 10) {
            fprintf(stderr, "not a number, or too large: %s\n", digits);
            exit(2);
        }
        number = 10 * number + digit;
    }
    return number;
}

static void print(FILE *file, const uint64_t *numbers, int count)
{
    for (int at = 0; at < count; at++)
        fprintf(file, "%" PRIu64 "%c", numbers[at], at + 1 < count ? ' ' : '\n');
}

/* Tells what a call answers, and puts the sheet out if it was written; gives how the program ends. */
static int written(const uint64_t *answer, int count, size_t length)
{
    print(stderr, answer, count);
    if (answer[0] != 0)
        return 1;
    if (fwrite(sheet, 1, length, stdout) < length || fflush(stdout) != 0) {
        perror("standard output");
        return 2;
    }
    return 0;
}

static int is_word(const char *argument, const char *word)
{
    return strcmp(argument, word) == 0;
}

int main(int count, char **arguments)
{
    int write = count == 7 && is_word(arguments[6], "write"), back = count == 9 && is_word(arguments[8], "back");
    if (count != 6 && !write && !back) {
        fprintf(stderr, "usage: retime SHEET THREAD STATEMENT LEAST GREATEST [write]\n"
                        "       retime SHEET THREAD STATEMENT OLD_LEAST OLD_GREATEST NEW_LEAST NEW_GREATEST back\n");
        return 2;
    }
    size_t length = read_file(arguments[1], sheet, sizeof sheet);
    size_t thread = number_of(arguments[2]), statement = number_of(arguments[3]);
    uint64_t least = number_of(arguments[4]), greatest = number_of(arguments[5]);

    uint64_t answer[8];
    if (write) {
        zumbeiry_change_times(sheet, length, thread, statement, least, greatest, answer, 8);
        return written(answer, 8, length);
    }
    if (back) {
        zumbeiry_take_back(sheet, length, thread, statement, least, greatest,
                           number_of(arguments[6]), number_of(arguments[7]), answer, 2);
        return written(answer, 2, length);
    }
    uint32_t refusal = zumbeiry_preview(sheet, length, copy, sizeof copy, work, 12000,
                                        thread, statement, least, greatest, answer, 5);
    print(stdout, answer, 5);
    return refusal == 0 ? 0 : 1;
}
