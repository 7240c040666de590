/* What the smallest programs that make a call share: a file that is read, the length of a buffer, and an output that is written. */
#ifndef CALLER_H
#define CALLER_H

#include <inttypes.h>
#include <stdio.h>
#include <stdlib.h>

/* The bytes of a file, as far as the most, and how many there are; the program ends if it cannot be read. */
static inline size_t read_file(const char *path, uint8_t *bytes, size_t most)
{
    FILE *file = fopen(path, "rb");
    if (file == NULL) {
        perror(path);
        exit(2);
    }
    size_t length = fread(bytes, 1, most, file);
    if (ferror(file)) {
        perror(path);
        exit(2);
    }
    fclose(file);
    return length;
}

/* The length that decimal digits give; the program ends if it is more than the most, or if there is something else. */
static inline size_t length_of(const char *digits, size_t most)
{
    size_t length = 0;
    for (const char *at = digits; at == digits || *at != '\0'; at++) {
        if (*at < '0' || *at > '9' || (length = 10 * length + (size_t)(*at - '0')) > most) {
            fprintf(stderr, "not a number, or more than %zu: %s\n", most, digits);
            exit(2);
        }
    }
    return length;
}

/* Prints refusal, place and bytes written on standard error, and those bytes on standard output; the program's exit status. */
static inline int put_output(const uint64_t answer[3], const uint8_t *output)
{
    fprintf(stderr, "%" PRIu64 " %" PRIu64 " %" PRIu64 "\n", answer[0], answer[1], answer[2]);
    if (fwrite(output, 1, answer[2], stdout) != answer[2] || fflush(stdout) != 0) {
        perror("standard output");
        return 2;
    }
    return answer[0] == 0 ? 0 : 1;
}

#endif
