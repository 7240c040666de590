/* Prints where the sheet with a name stands in the customer's file or else in ours: refusal, file, place, size. */
#include "caller.h"
#include "zumbeiry.h"

#define MOST_BYTES 1000000

static uint8_t customer[MOST_BYTES + 1];
static uint8_t house[MOST_BYTES + 1];

/* The bytes of a file, and how many there are; the program ends if it cannot be read whole. */
static size_t read_whole(const char *path, uint8_t *bytes)
{
    size_t length = read_file(path, bytes, MOST_BYTES + 1);
    if (length > MOST_BYTES) {
        fprintf(stderr, "%s: more than %d bytes\n", path, MOST_BYTES);
        exit(2);
    }
    return length;
}

/* The number that decimal digits give; 256 if it is larger, or if there is something else. */
static unsigned name_of(const char *digits)
{
    unsigned name = *digits == '\0' ? 256 : 0;
    for (; *digits != '\0' && name <= 255; digits++)
        name = *digits >= '0' && *digits <= '9' ? 10 * name + (unsigned)(*digits - '0') : 256;
    return name <= 255 ? name : 256;
}

int main(int count, char **arguments)
{
    unsigned name = count == 4 ? name_of(arguments[1]) : 256;
    if (name > 255) {
        fprintf(stderr, "usage: find NAME HIS OURS, NAME from 0 to 255\n");
        return 2;
    }
    size_t customer_length = read_whole(arguments[2], customer);
    size_t house_length = read_whole(arguments[3], house);

    uint64_t answer[4];
    uint32_t refusal = zumbeiry_find((uint8_t)name, customer, customer_length, house, house_length, answer, 4);
    printf("%" PRIu64 " %" PRIu64 " %" PRIu64 " %" PRIu64 "\n", answer[0], answer[1], answer[2], answer[3]);
    return refusal == 0 ? 0 : 1;
}
