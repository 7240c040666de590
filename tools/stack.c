/*
 * The stack that a call of zumbeiry_check, zumbeiry_change_times, zumbeiry_take_back, zumbeiry_preview, zumbeiry_mend and zumbeiry_print
 * uses: with each sheet of a corpus each is made on a painted stack, and the deepest byte that changed is found. The new times, and the
 * old ones, are those that the sheet's first statement has, so that the preview gives the numbers of the check, and the change and its
 * taking back leave the sheet as it is. And that of zumbeiry_convert, with each of the texts, and of zumbeiry_print with its sheet.
 *
 *     stack CORPUS TEXT..     corpus.rs describes the first file
 */
#define _GNU_SOURCE
#include "caller.h"
#include "zumbeiry.h"

#include <pthread.h>

#define STACK ((size_t)1 << 18)
#define PAINT 0xA5
#define FRONT 20 /* bytes before an entry's sheet */
#define WRONG 1  /* planted in an entry: one of its numbers is wrong on purpose */

static unsigned char stack[STACK] __attribute__((aligned(4096)));
static uint8_t *sheet, copy[98304], text[1 << 20], converted[16384];
static size_t sheet_length, text_length, work_length, least, greatest, depth;
static int32_t work[65536];
static uint32_t changes[1024];
static uint64_t answer[8];

static void check(void)
{
    zumbeiry_check(sheet, sheet_length, work, work_length, answer, 5);
}

static void change(void)
{
    zumbeiry_change_times(sheet, sheet_length, 0, 0, least, greatest, answer, 8);
}

static void take_back(void)
{
    zumbeiry_take_back(sheet, sheet_length, 0, 0, least, greatest, least, greatest, answer, 2);
}

static void preview(void)
{
    zumbeiry_preview(sheet, sheet_length, copy, sizeof copy, work, work_length, 0, 0, least, greatest, answer, 5);
}

static void mend(void)
{
    zumbeiry_mend(sheet, sheet_length, copy, sizeof copy, changes, 1024, answer, 4);
}

static void print(void)
{
    zumbeiry_print(sheet, sheet_length, copy, sizeof copy, answer, 3);
}

static void convert(void)
{
    zumbeiry_convert(text, text_length, converted, sizeof converted, answer, 3);
}

struct measured {
    const char *name;
    void (*call)(void);
    size_t most, entry; /* bytes, and the first entry, or text, that needs them */
};

static struct measured all[] = {
    {"zumbeiry_check", check, 0, 0},
    {"zumbeiry_change_times", change, 0, 0},
    {"zumbeiry_take_back", take_back, 0, 0},
    {"zumbeiry_preview", preview, 0, 0},
    {"zumbeiry_mend", mend, 0, 0},
    {"zumbeiry_print", print, 0, 0},
};
static struct measured *const all_end = all + sizeof all / sizeof *all;
static struct measured of_texts[] = {{"zumbeiry_convert", convert, 0, 0}, {"zumbeiry_print", print, 0, 0}};

/* The call comes from here, so that what lies below this frame is the call's. */
static __attribute__((noinline)) void *painted(void *measured)
{
    unsigned char *here = __builtin_frame_address(0);
    volatile unsigned char *at;
    /* 256 bytes are left for this function's own */
    for (at = stack; at < here - 256; at++)
        *at = PAINT;
    ((struct measured *)measured)->call();
    for (at = stack; *at == PAINT; at++)
        ;
    depth = (size_t)(here - (unsigned char *)at);
    return NULL;
}

static void run_painted(struct measured *measured)
{
    pthread_attr_t attributes;
    pthread_t thread;
    pthread_attr_init(&attributes);
    if (pthread_attr_setstack(&attributes, stack, STACK) != 0
        || pthread_create(&thread, &attributes, painted, measured) != 0 || pthread_join(thread, NULL) != 0) {
        fprintf(stderr, "stack: no thread\n");
        exit(2);
    }
    pthread_attr_destroy(&attributes);
}

static size_t number(const uint8_t *bytes, int count)
{
    size_t value = 0;
    while (count-- > 0)
        value = value << 8 | *bytes++;
    return value;
}

/* The times in the sheet's first field of tag 6; zeros if there is none. */
static void take_times(void)
{
    size_t at = 0;
    while (at + 7 <= sheet_length && sheet[at] != 6)
        at += 3 + number(sheet + at + 1, 2);
    int there = at + 7 <= sheet_length;
    least = there ? number(sheet + at + 3, 2) : 0;
    greatest = there ? number(sheet + at + 5, 2) : 0;
}

/*
 * Whether the answer is what the entry says; of the change, its taking back and the printing, which do not search, 0 for a sheet that
 * reads. Such a sheet is copied by the mending; any other is refused, or changes are listed.
 */
static int expected(const struct measured *measured, const uint8_t *entry)
{
    if (entry[19] == WRONG)
        return 1;
    if (measured->call == mend)
        return (answer[0] == 0 && answer[3] == 0) == (entry[4] == 0 || entry[4] > 9);
    if (measured->call == change || measured->call == take_back || measured->call == print)
        return answer[0] == (entry[4] <= 9 ? entry[4] : 0);
    return answer[0] == entry[4] && answer[2] == number(entry + 7, 4);
}

static void measured_at(struct measured *measured, size_t index)
{
    if (depth > measured->most) {
        measured->most = depth;
        measured->entry = index;
    }
}

static void measure(uint8_t *entry, size_t index)
{
    sheet_length = number(entry, 2);
    work_length = number(entry + 2, 2);
    sheet = entry + FRONT;
    take_times();
    for (struct measured *measured = all; measured < all_end; measured++) {
        run_painted(measured);
        if (!expected(measured, entry)) {
            fprintf(stderr, "stack: %s answers entry %zu otherwise\n", measured->name, index);
            exit(1);
        }
        measured_at(measured, index);
    }
}

/* Of a text that is refused the sheet is empty, and refused too. */
static void measure_text(const char *path, size_t index)
{
    text_length = read_file(path, text, sizeof text);
    run_painted(&of_texts[0]);
    measured_at(&of_texts[0], index);
    sheet = converted;
    sheet_length = answer[2];
    run_painted(&of_texts[1]);
    measured_at(&of_texts[1], index);
}

int main(int count, char **arguments)
{
    static uint8_t corpus[1 << 24];
    if (count < 2) {
        fprintf(stderr, "usage: stack CORPUS TEXT..\n");
        return 2;
    }
    size_t length = read_file(arguments[1], corpus, sizeof corpus), entries = 0;
    for (size_t at = 4; at + FRONT <= length; at += FRONT + sheet_length)
        measure(corpus + at, entries++);
    for (int at = 2; at < count; at++)
        measure_text(arguments[at], (size_t)at);
    printf("%zu sheets\n", entries);
    for (struct measured *measured = all; measured < all_end; measured++)
        printf("%s: at most %zu bytes of stack, on entry %zu\n", measured->name, measured->most, measured->entry);
    for (struct measured *measured = of_texts; count > 2 && measured < of_texts + 2; measured++)
        printf("%s: at most %zu bytes of stack, on %s\n", measured->name, measured->most, arguments[measured->entry]);
    return 0;
}
