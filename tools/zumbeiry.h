/*
 * The library's nine calls. `tools/staticlib label` writes target/staticlib/liblabel.a, with zumbeiry_check, `tools/staticlib shelf`
 * writes target/staticlib/libshelf.a, with zumbeiry_find, `tools/staticlib record` target/staticlib/librecord.a, with zumbeiry_follow,
 * `tools/staticlib retime` target/staticlib/libretime.a, with zumbeiry_change_times, zumbeiry_take_back and zumbeiry_preview,
 * `tools/staticlib mend` target/staticlib/libmend.a, with zumbeiry_mend, `tools/staticlib convert` target/staticlib/libconvert.a, with
 * zumbeiry_convert, and `tools/staticlib print` target/staticlib/libprint.a, with zumbeiry_print (x86-64). A program links the archive of
 * the call that it makes.
 */
#ifndef ZUMBEIRY_H
#define ZUMBEIRY_H

#include <stddef.h>
#include <stdint.h>

#ifdef __cplusplus
extern "C" {
#endif

/*
 * Says whether the label may stay on a sheet.
 *
 * Five numbers go to answer[0] to answer[4], in this order:
 *
 *     refusal   0: the label may stay; 1 to 16: why not
 *     place     the offset in the sheet that refusals 1 to 10 and 16 name, else 0
 *     steps     the steps that the search took, 0 if the sheet does not read
 *     low       for refusals 0 and 15 the window's low end, else 0
 *     high      likewise its high end
 *
 * It is proved that no run of an accepted sheet finishes before low or after high. That some run finishes at low, or at high, is
 * not shown: the rules may give a wider window than the runs need.
 *
 * An array of fewer than five numbers is left as it is, and the numbers after the fifth too. The refusal is returned.
 *
 * The work buffer may have any length and any contents; a state takes 100 numbers of it, so that 12000 hold 120 states. It is
 * all zeros afterwards, in every case. The sheet is only read. Nothing is allocated or kept between calls: threads may call at
 * the same time, each with its own buffer and answer. A call needs stack: docs/PERFORMANCE.md has the size.
 *
 * A longer work buffer gives the same five numbers, unless the refusal was 14; so does a larger budget, up to 10,000,000, in a
 * sheet that reads, unless it was 13. Both are proved.
 *
 * The caller sees to it that each pointer has that many readable (work and answer: writable) numbers, aligned for their type
 * and not null even where the length is 0, and that work and answer overlap neither each other nor the sheet.
 */
uint32_t zumbeiry_check(const uint8_t *sheet, size_t sheet_length,
                        int32_t *work, size_t work_length,
                        uint64_t *answer, size_t answer_length);

/*
 * Looks for a sheet by its name in the customer's file, else in the house's (ours). A file has pairs of fields: a name (tag 48,
 * length 1), then the bytes of its sheet (tag 49); the first pair with the name ends the look, and so does the first field that
 * is refused. The sheet is not read here, and may be empty.
 *
 * Four numbers go to answer[0] to answer[3], in this order:
 *
 *     refusal   0: found; 1: the file ends inside a field, or where the sheet of a name is due; 2: a tag that is not due; 3: a
 *               name of another length than 1; 5: neither file has a pair with the name
 *     file      0: the customer's; 1: the house's; of the sheet or of the field at fault, for 5 the house's
 *     place     the offset in that file of the sheet's first byte, or of the field at fault; for 5 it is 0
 *     size      the bytes of the sheet, 0 where it is refused
 *
 * The sheet is that part of the file itself, from place on: nothing is copied.
 *
 * An array of fewer than four numbers is left as it is, and the numbers after the fourth too. The refusal is returned.
 *
 * Each file may have any length and is only read; the two may overlap or be the same. Nothing is allocated or kept between
 * calls: threads may call at the same time, each with its own answer.
 *
 * The caller sees to it that each pointer has that many readable (answer: writable) numbers, aligned for their type and not null
 * even where the length is 0, and that the answer overlaps neither file.
 */
uint32_t zumbeiry_find(uint8_t name,
                       const uint8_t *customer, size_t customer_length,
                       const uint8_t *house, size_t house_length,
                       uint64_t *answer, size_t answer_length);

/*
 * Follows the record of a job through its sheet. A record has a starting value (tag 32, length 4) for each variable and then for
 * each register of each thread, in the sheet's order; behind them, to its end, an event (tag 33, length 3: the thread, then the
 * recorder's clock in two bytes) for each end of a statement. The first refusal ends the following.
 *
 * Five numbers go to answer[0] to answer[4], in this order:
 *
 *     refusal   0: the record is a run of the sheet that leaves a state; of the sheet, 1 to 9: it does not read, as in
 *               zumbeiry_check; of the record, 9: it has more than 65,536 bytes; 1: it ends inside a field, or where a starting
 *               value is due; 2: a tag that is not due; 3: a length that is not the tag's; 4: a starting value outside its range;
 *               5: no such thread; 21: not an event of the run; 10 or 16: an event whose arithmetic has no result, for a divisor
 *               0 or for its size
 *     file      0: the sheet; 1: the record; of the field at fault, for refusal 0 the sheet
 *     place     the offset in that file of the field at fault; for refusals 0 and 9 it is 0
 *     finished  1: every thread stands at halt; 0: not so, or refused
 *     tick      the full tick of the last event, 0 if there is none or where it is refused
 *
 * It is proved that a finished record of a sheet that zumbeiry_check accepts, with whichever work buffer, ends inside the sheet's
 * label, and that the clock's sixteen bits suffice: no two successive events of a run are more than 65,535 ticks apart.
 *
 * An array of fewer than five numbers is left as it is, and the numbers after the fifth too. The refusal is returned.
 *
 * Sheet and record may have any length and are only read; the two may overlap. Nothing is allocated or kept between calls:
 * threads may call at the same time, each with its own answer. A call needs stack: docs/PERFORMANCE.md has the size.
 *
 * The caller sees to it that each pointer has that many readable (answer: writable) numbers, aligned for their type and not null
 * even where the length is 0, and that the answer overlaps neither sheet nor record.
 */
uint32_t zumbeiry_follow(const uint8_t *sheet, size_t sheet_length,
                         const uint8_t *record, size_t record_length,
                         uint64_t *answer, size_t answer_length);

/*
 * Sets new times on one statement of a sheet, named by its thread and by its number in the thread, both from 0: the four bytes of
 * its least and greatest time are written, and no other byte of the sheet.
 *
 * Eight numbers go to answer[0] to answer[7], in this order:
 *
 *     refusal   0: the change is made; 1 to 9: the sheet does not read, as in zumbeiry_check; of a sheet that reads, 5: no such
 *               statement; else 4: times that the statement may not have (halt takes 0 and 0; any other a least of 1 or more,
 *               and a greatest from that up to 65,535)
 *     place     of a sheet that does not read as in zumbeiry_check, else 0
 *
 * and what the change did, which zumbeiry_take_back is called with; zeros where it is refused:
 *
 *     thread, statement             as they were given
 *     old least, old greatest       the times that the statement had
 *     new least, new greatest       those that it has now
 *
 * Where it is refused, the sheet is as it was. A 5 with place 0 is always that of the statement; a 4 with place 0 may be that of
 * the sheet's first field, which zumbeiry_check then gives too.
 *
 * It is proved that the changed sheet reads, as the same program with those times.
 *
 * An array of fewer than eight numbers is left as it is, and the numbers after the eighth too; the change is made all the same. The
 * refusal is returned.
 *
 * The sheet may have any length, thread, statement and times any value. Nothing is allocated or kept between calls: threads may
 * call at the same time, each with its own sheet and answer. A call needs stack: docs/PERFORMANCE.md has the size.
 *
 * The caller sees to it that each pointer has that many writable numbers, aligned for their type and not null even where the
 * length is 0, and that the answer does not overlap the sheet.
 */
uint32_t zumbeiry_change_times(uint8_t *sheet, size_t sheet_length,
                               size_t thread, size_t statement,
                               uint64_t least, uint64_t greatest,
                               uint64_t *answer, size_t answer_length);

/*
 * Takes back a change of times, given by the last six numbers of zumbeiry_change_times: if the statement shows the new times, the
 * old ones are written into its four time bytes, and no other byte of the sheet.
 *
 * Two numbers go to answer[0] and answer[1], in this order:
 *
 *     refusal   0: the change is taken back; 1 to 9: the sheet does not read, as in zumbeiry_check; of a sheet that reads, 5: no
 *               such statement; else 4: old times that the statement may not have; else 18: it does not show the new times, it
 *               was changed since
 *     place     of a sheet that does not read as in zumbeiry_check, else 0
 *
 * Where it is refused, the sheet is as it was. Of a 5 and a 4 with place 0 the same holds as for zumbeiry_change_times. The new
 * times are only compared with those in the sheet.
 *
 * It is proved that, where nothing else was written in the sheet since the change, it has again the very bytes before it, and that
 * several changes with nothing else written between, taken back last first, restore the first sheet, also when two name one
 * statement.
 *
 * An array of fewer than two numbers is left as it is, and the numbers after the second too; the change is taken back all the same.
 * The refusal is returned.
 *
 * The sheet may have any length, thread, statement and times any value. Nothing is allocated or kept between calls: threads may
 * call at the same time, each with its own sheet and answer. A call needs stack: docs/PERFORMANCE.md has the size.
 *
 * The caller sees to it that each pointer has that many writable numbers, aligned for their type and not null even where the
 * length is 0, and that the answer does not overlap the sheet.
 */
uint32_t zumbeiry_take_back(uint8_t *sheet, size_t sheet_length,
                            size_t thread, size_t statement,
                            uint64_t old_least, uint64_t old_greatest,
                            uint64_t new_least, uint64_t new_greatest,
                            uint64_t *answer, size_t answer_length);

/*
 * Says what zumbeiry_check would answer if a statement had new times: a copy of the sheet is changed as by zumbeiry_change_times and
 * then checked with the work buffer. The sheet itself is only read.
 *
 * Five numbers go to answer[0] to answer[4], in this order:
 *
 *     refusal   0: the label may stay with those times; 1 to 9: the sheet does not read; of a sheet that reads, 19: the copy
 *               buffer is shorter than the sheet; else 5 or 4 of the change; else 10 to 16 as in zumbeiry_check
 *     place     of a sheet that does not read, and for 10 and 16, as in zumbeiry_check, else 0
 *     steps     the steps that the search took, 0 if there was none
 *     low       for refusals 0 and 15 the window's low end, else 0
 *     high      likewise its high end
 *
 * It is proved that, where the change is not refused, they are the five numbers that zumbeiry_check gives of the changed sheet with a
 * work buffer of that length; so what is said of its numbers holds of these.
 *
 * An array of fewer than five numbers is left as it is, and the numbers after the fifth too. The refusal is returned.
 *
 * Copy and work buffer may have any length and any contents, and are all zeros afterwards, in every case and to their ends; a state
 * takes 100 numbers of the work buffer. The sheet may have any length, thread, statement and times any value. Nothing is allocated
 * or kept between calls: threads may call at the same time, each with its own buffers and answer. A call needs stack:
 * docs/PERFORMANCE.md has the size.
 *
 * The caller sees to it that each pointer has that many readable (copy, work and answer: writable) numbers, aligned for their type
 * and not null even where the length is 0, and that copy, work and answer overlap neither each other nor the sheet.
 */
uint32_t zumbeiry_preview(const uint8_t *sheet, size_t sheet_length,
                          uint8_t *copy, size_t copy_length,
                          int32_t *work, size_t work_length,
                          size_t thread, size_t statement,
                          uint64_t least, uint64_t greatest,
                          uint64_t *answer, size_t answer_length);

/*
 * Mends a sheet that an old card writer garbled, into a lent buffer: the ends of the label, of a range or of a statement's times are
 * exchanged where low is above high, and a halt is added to a thread that closes on another statement. A sheet that reads is copied.
 *
 * Each change goes to the changes as two numbers, in the sheet's order: its kind (1: exchanged; 2: halt added) and the offset of its
 * field in the sheet as it was given, of an added halt that of the thread's last statement. The rest of both buffers is zero.
 *
 * Four numbers go to answer[0] to answer[3], in this order:
 *
 *     refusal   0: mended or copied; 9: the sheet has more than 16,384 bytes; else 1 to 6 or 8: with the changes made it does not
 *               read, as in zumbeiry_check; else 9: with the added halts it has more than 16,384 bytes; else 19: a buffer is too short
 *     place     for these that of zumbeiry_check, in the sheet as it was given (8 for an added halt that would be a 65th statement:
 *               the thread's last one), else 0
 *     written   the bytes of the mended sheet, 0 where it is refused
 *     listed    the numbers of the changes, two for each, 0 where it is refused
 *
 * Where it is refused, both buffers are all zeros. It is proved that the mended sheet reads.
 *
 * An array of fewer than four numbers is left as it is, and the numbers after the fourth too; the sheet is mended all the same. The
 * refusal is returned.
 *
 * Both buffers may have any length and any contents, and are written to their ends in every case; 16,384 bytes hold every mended
 * sheet, and 594 numbers its list (so many by counting a sheet's fields; that 8,192 suffice is proved). The sheet may have any
 * length and is only read. Nothing is allocated or kept between calls: threads may call at the same time, each with its own buffers
 * and answer. A call needs stack: docs/PERFORMANCE.md has the size.
 *
 * The caller sees to it that each pointer has that many readable (mended, changes and answer: writable) numbers, aligned for their
 * type and not null even where the length is 0, and that mended, changes and answer overlap neither each other nor the sheet.
 */
uint32_t zumbeiry_mend(const uint8_t *sheet, size_t sheet_length,
                       uint8_t *mended, size_t mended_length,
                       uint32_t *changes, size_t changes_length,
                       uint64_t *answer, size_t answer_length);

/*
 * Converts a sheet that is typed as text into a lent buffer: the sheet, and zeros behind it. README.md says what a text says.
 *
 * Three numbers go to answer[0] to answer[2], in this order:
 *
 *     refusal   0: converted; 20: the text cannot be read, or a line is out of turn or missing; else 9: the sheet would have more
 *               than 16,384 bytes; else 4 to 8: the sheet would not read, as in zumbeiry_check, or a number is too big for its
 *               field (4); else 19: the buffer is too short
 *     place     in the text: of 20 the first byte that cannot go on, or the text's end; of 4 to 8 the start of the line at fault;
 *               else 0
 *     written   the bytes of the sheet, 0 where it is refused
 *
 * Where it is refused, the buffer is all zeros. It is proved that a sheet that is written reads, as the program that the text says,
 * and that the place of a 20 is the first byte that cannot go on: no readable text goes on with it, and what stands before it begins one.
 *
 * An array of fewer than three numbers is left as it is, and the numbers after the third too; the text is converted all the same. The
 * refusal is returned.
 *
 * The buffer may have any length and any contents, and is written to its end in every case; 16,384 bytes hold every sheet. The text may
 * have any length and any bytes, and is only read. Nothing is allocated or kept between calls: threads may call at the same time, each
 * with its own buffer and answer. A call needs stack: docs/PERFORMANCE.md has the size.
 *
 * The caller sees to it that each pointer has that many readable (sheet and answer: writable) numbers, aligned for their type and not
 * null even where the length is 0, and that sheet and answer overlap neither each other nor the text.
 */
uint32_t zumbeiry_convert(const uint8_t *text, size_t text_length,
                          uint8_t *sheet, size_t sheet_length,
                          uint64_t *answer, size_t answer_length);

/*
 * Prints a sheet as text into a lent buffer, in its one form: the text that zumbeiry_convert reads, and zeros behind it. Words have one
 * space between (none after !, ( or a constant's minus, before ) or round ..), numbers no leading zeros, each line ends with a newline,
 * none is blank, and parentheses stand only where the expression would otherwise be another.
 *
 * Three numbers go to answer[0] to answer[2], in this order:
 *
 *     refusal   0: printed; 1 to 9: the sheet does not read, as in zumbeiry_check; else 19: the buffer is too short
 *     place     of a sheet that does not read as in zumbeiry_check, else 0
 *     written   the bytes of the text, 0 where it is refused
 *
 * Where it is refused, the buffer is all zeros. It is proved that zumbeiry_convert makes of the text that sheet again, byte for byte, so
 * that two sheets that read print alike exactly when they are equal; and that a text is at most six times as long as its sheet.
 *
 * An array of fewer than three numbers is left as it is, and the numbers after the third too; the sheet is printed all the same. The
 * refusal is returned.
 *
 * The buffer may have any length and any contents, and is written to its end in every case; 98,304 bytes hold every printed text. The
 * sheet may have any length and any bytes, and is only read. Nothing is allocated or kept between calls: threads may call at the same
 * time, each with its own buffer and answer. A call needs stack: docs/PERFORMANCE.md has the size.
 *
 * The caller sees to it that each pointer has that many readable (text and answer: writable) numbers, aligned for their type and not
 * null even where the length is 0, and that text and answer overlap neither each other nor the sheet.
 */
uint32_t zumbeiry_print(const uint8_t *sheet, size_t sheet_length,
                        uint8_t *text, size_t text_length,
                        uint64_t *answer, size_t answer_length);

#ifdef __cplusplus
}
#endif

#endif
