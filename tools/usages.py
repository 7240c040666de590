"""What ./zumbeiry prints of its verbs when it is asked for help."""

VERBS = """usage: ./zumbeiry VERB ..

  check FILE..           may the label stay on the sheet?
  find NAME HIS OURS     the sheet with that name, from the customer's file or else from ours
  follow SHEET RECORD    is what the machine recorded a run of the sheet, and did the label hold?
  preview SHEET THREAD STATEMENT LEAST..GREATEST
                         what would the check give, had that statement these times?
  take-back SHEET THREAD STATEMENT OLD_LEAST..OLD_GREATEST NEW_LEAST..NEW_GREATEST
                         the old times again, instead of the new ones that preview --write gave
  mend SHEET [MENDED]    what did the card writer garble? the mended sheet goes into a new file
  convert TEXT [SHEET]   which sheet does a text tell, or where can it not be read? the sheet goes into a new file
  print SHEET [FILE]     the sheet's one printed form, a text, or any text brought into that form
  diff A B               are two sheets equal, or in which lines do their printed forms differ?

./zumbeiry VERB --help says more."""

CHECK = """usage: ./zumbeiry check [--numbers] [--text | --bytes] FILE..

Prints for each sheet the five numbers (refusal, place, steps, low, high) and the same in words.
FILE is a sheet as bytes, or as text (what it says: ./zumbeiry convert --help); - is standard input.
A text that is not converted is refused as by convert: the first two numbers are the refusal and its place in
the text, the others 0.

  --numbers    the lines of five numbers alone
  --text       every FILE is text
  --bytes      every FILE is bytes

If neither is said, a FILE is text if it is not empty and holds no control characters but tabs and
line ends. (The bytes of a sheet begin with a control character, byte 1.)
Bytes, threads, statements and names count from 0, lines of a text from 1.

Ends with 0 if every sheet is accepted, 1 if one is refused, 2 if one could not be read or checked."""

FIND = """usage: ./zumbeiry find [--check [--numbers]] NAME HIS OURS

Looks for a sheet by its name in the customer's file, HIS, else in our file, OURS, and writes the
bytes of the first one to standard output. A file has pairs of fields, a name and then a sheet
(tools/shelf_file.py makes such files). NAME is a number from 0 to 255; one of the files may be -,
standard input. Both files are read before the look, so that an OURS which is missing or has more
than 1,000,000 bytes is told even where HIS has the name.

  --check      does not write the sheet that is found, but checks it as ./zumbeiry check --bytes does
  --numbers    with --check: the lines of numbers alone

A refusal goes to standard error, as a line of three numbers and the same in words: the refusal, the
file (0 the customer's, 1 ours) and the offset of the field at fault.

Ends with 0 if the sheet is found (with --check: and accepted), 1 if the lookup or the check is refused,
2 if a file could not be read or there is no answer."""

FOLLOW = """usage: ./zumbeiry follow [--numbers] [--text | --bytes] SHEET RECORD

Follows what the machine recorded of a job through the job's sheet: is it a run, has it finished, at
which tick, and did the label hold? Prints five numbers and the same in words: the refusal (0: a run),
the file at fault (0 the sheet, 1 the record), the offset of the field at fault, whether the run has
finished (1) or not (0), and its last tick. What is refused is unfinished at tick 0.
SHEET is bytes or text, as for check; of a text that is not converted the place is one in the text.
RECORD is bytes: fields of tag 32 with the starting values, the variables first and then the registers of
each thread, and a field of tag 33 for each event, its thread and the recorder's clock of sixteen bits.
One of the files may be -, standard input.

  --numbers    the line of five numbers alone
  --text       SHEET is text
  --bytes      SHEET is bytes

Ends with 0 if the record is a run whose label holds so far, 1 if a file is refused or the run is
outside the label, 2 if a file could not be read or there is no answer."""

PREVIEW = """usage: ./zumbeiry preview [--numbers] [--text | --bytes] [--write] SHEET THREAD STATEMENT LEAST..GREATEST

Shows what new times on one statement would give: two lines of five numbers (refusal, place, steps, low,
high), what the check of SHEET gives now and what it would give, and the same in words. Threads, and the
statements of each, count from 0; the times are two numbers of ticks, as in 2..3.
SHEET is bytes or text, as for check; - is standard input.

  --numbers    the two lines of five numbers alone; with --write also the words that take-back is given
  --text       SHEET is text
  --bytes      SHEET is bytes
  --write      then writes the new times into SHEET, four bytes of it, unless they are refused; also where
               the check would then refuse the sheet. SHEET is a file of bytes: a text is not written.
               Where the change is made the last line tells how it is taken back: the command, or with
               --numbers what stands behind SHEET in it

Ends with 0 if the label may stay with the new times, 1 if the sheet, the times or the changed sheet is
refused, 2 if a file could not be read or written or there is no answer."""

TAKE_BACK = """usage: ./zumbeiry take-back [--numbers] SHEET THREAD STATEMENT OLD_LEAST..OLD_GREATEST NEW_LEAST..NEW_GREATEST

Takes a change of times back: if the statement shows the new times, the old ones go into SHEET again, four
bytes of it. Where nothing else was written in SHEET since, it then has the very bytes that it had before.
The words behind SHEET are those that preview --write printed. Several changes are taken back last first.
Prints two numbers (refusal, place) and the same in words. Where it is refused nothing is written.
SHEET is a file of bytes: neither a text nor standard input is written.

  --numbers    the line of two numbers alone

Ends with 0 if the change is taken back, 1 if it is refused, 2 if the file could not be read or written or
there is no answer."""

MEND = """usage: ./zumbeiry mend [--numbers] [--text | --bytes] [--check] SHEET [MENDED]

Mends what an old card writer garbles: the ends of the label, of a range or of a statement's times are
exchanged where low is above high, and halt is added to a thread that closes on another statement. Prints
four numbers (refusal, place, bytes of the mended sheet, numbers that list the changes, two for each) and
the same in words, a line for each change. A sheet that reads well is copied. Offsets and lines are those
of SHEET, which is left as it is.
SHEET is bytes or text, as for check; - is standard input. MENDED is a new file, which gets the mended
sheet's bytes; none that is there is overwritten. If it is -, the bytes go to standard output, and numbers and
words to standard error. Without MENDED nothing is written. A text that is converted reads well, and its sheet
is copied; one that is not converted is not mended.

  --numbers    the line of four numbers, and a line of two for each change, kind (1 exchanged, 2 halt
               added) and offset of the field; with --check then the line of five numbers
  --text       SHEET is text
  --bytes      SHEET is bytes
  --check      then checks the mended sheet too, as ./zumbeiry check --bytes does

Ends with 0 if the sheet is mended or copied (with --check: and accepted), 1 if the mending or the check is
refused, 2 if a file could not be read or written or there is no answer."""

CONVERT = """usage: ./zumbeiry convert [--numbers] TEXT [SHEET]

Makes the sheet that a text tells. Prints three numbers (refusal, place in the text, bytes of the sheet) and the
same in words; where the text is refused also its line and column, both from 1, and the line with a mark.
TEXT has at most 1,048,576 bytes; - is standard input. SHEET is a new file, which gets the sheet's bytes; none
that is there is overwritten. If it is -, the bytes go to standard output, and numbers and words to standard
error. Without SHEET nothing is written.

  --numbers    the line of three numbers alone

What a text says, a line for each:

  limit 10               the lines limit, budget, label and locks, in this order
  budget 100
  label 0..10
  locks 1
  var -1..1              then any number of variables, x0 first
  thread                 then, for each thread,
  reg 0..9               its registers, r0 first, and one statement or more, with their times:
  2..3 skip
  1..1 r0 := r0 + 2 * 3
  1..1 if r0 < 5 goto 2  statements count from 0 in their thread
  1..2 store r0 to x0
  1..2 load r0 from x0
  1..1 lock l0
  1..1 unlock l0
  halt                   without times

* and / bind before + and -, each from left to right. Conditions: true, false, a == b, a < b, ! before one of
these, before a condition in parentheses or before another !, and && between, from left to right. Parentheses may
stand round arithmetic and round conditions, 32 deep. A minus belongs to the constant behind it, not to a
register. Spaces stand where one likes between words, and where two words of letters or digits would meet. There
are no tabs, comments, blank lines or upper case; the last newline may be missing.

Ends with 0 if the text is converted, 1 if it is refused, 2 if a file could not be read or written or there is
no answer."""

PRINT = """usage: ./zumbeiry print [--numbers] [--text | --bytes] SHEET [FILE]

Prints the one text of a sheet that reads well: equal sheets print alike, and different ones do not. The text says
the sheet, and convert makes of it the same bytes again. In it words have one space between (none after !, ( or a
constant's minus, before ) or round ..), numbers no leading zeros, and parentheses stand only where they are needed;
each line ends with a newline, and none is blank.
SHEET is bytes or text, as for check; - is standard input. A text is converted first, and so brought into that form;
one that is not converted is refused as by convert.
The text goes to standard output, and three numbers (refusal, place, bytes of the text) and the same in words to
standard error. FILE is a new file, which gets the text instead; none that is there is overwritten, and numbers and
words then go to standard output. A FILE - is standard output.

  --numbers    the line of three numbers alone, beside the text
  --text       SHEET is text
  --bytes      SHEET is bytes

Ends with 0 if the sheet is printed, 1 if it is refused, 2 if a file could not be read or written or there is no
answer."""

DIFF = """usage: ./zumbeiry diff [--text | --bytes] A B

Compares two sheets by their printed forms (./zumbeiry print --help), line by line: says that they are equal, which
they are byte for byte where they print alike, or shows the lines of A (-) and of B (+) that differ, each with its
number in the printed form and what it tells of the sheet. Lines that are moved are shown twice; of a long line a
part is shown, round the first difference where it stands for another one. Threads, statements and names count from
0, lines from 1.
A and B are bytes or text, as for check, also one of each; one of them may be -, standard input. How a text is
spaced, and parentheses that are not needed, make no difference.

  --text       both are text
  --bytes      both are bytes

Where one is refused it is told which, with its three numbers (refusal, place, 0) and the same in words, as by print.

Ends with 0 if the sheets are equal, 1 if they differ or one is refused, 2 if a file could not be read or there is
no answer."""
