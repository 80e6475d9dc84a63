/* Control charts for laboratories: the C interface, for x86-64 Linux.
 *
 * Results of duplicate, check and spike samples become words. A chart is built from 15 to 32 words and judges every further one. The
 * functions are proved, in Rattle: on every input they answer what the paper "Control charts for duplicate, check and spike results" fixes,
 * with the changes that docs/CHANGES.md lists. No proof covers this header: tests compare it with the functions.
 *
 * A WORD is a percentage in hundredths: 10000 is 100 %. A READING is a whole number in the method's smallest digit: 0.123 mg/L at three
 * decimals is 123. A kind and three readings give a word:
 *
 *     kind 1, duplicate   a, b: the two results; c is ignored              word = 20000 * |a - b| / (a + b), in 0..20000
 *     kind 2, check       a: found; b: made up; c is ignored               word = 10000 * a / b, in -20000..20000
 *     kind 3, spike       a: spiked sample; b: unspiked sample; c: added   word = 10000 * (a - b) / c, in -20000..20000
 *
 * The quotient goes to the nearest whole number. If it is exactly halfway between two, it goes to the even one: 312.5 gives 312.
 *
 * THE CHART has a base, the words that its limits come from, and a series, the words posted since. It is free, or a reanalysis or a
 * correction is due for an open verdict. A chart is always in its stored form, here called the form, at the front of a buffer that the
 * caller lends. The bytes of the form are the same on every machine: keep them as they are, in a file or a database. `room` is the number
 * of bytes of the buffer, *size the number of bytes of the form. Building sets *size. Post, reanalyse, correct and renew read it and set
 * it. Lines, against_lines and check take the form's size itself. CONTROL_CHART_FORM_MOST bytes have room for every chart. Bytes after the
 * form stay as they are. Keep the first *size bytes after every call that changes the chart. To go on with a kept chart, copy its bytes to
 * the front of a buffer, set *size to their number, and call control_chart_check.
 *
 * THE LIMITS come from the words of the base: their mean and their standard deviation S, with the divisor n - 1. Control limits are the
 * mean + 3 S and the mean - 3 S, warning limits the mean + 2 S and the mean - 2 S. A kind 1 chart has only the upper ones.
 *
 * THE ANSWER of every function is 0 or the number of a refusal; both have names below. Each function lists its refusals in their order:
 * if several apply, it answers the first. 13 is also the answer if *size is more than `room`. A refused call changes nothing: every lent
 * byte and number is as it was. docs/REFUSALS.md of the project says what to do after each refusal.
 *
 * POINTERS must not be null, even if the length beside them is 0. They must be aligned for their type and point to as many elements as
 * that length says. Memory that is lent for writing must not overlap other memory that is lent to the same call. The functions keep
 * nothing between calls, allocate nothing and use some kilobytes of stack. Calls may run at the same time if none of them writes to memory
 * that is lent to another.
 */
#ifndef CONTROL_CHART_H
#define CONTROL_CHART_H

#include <stddef.h>
#include <stdint.h>

/* The version, as `control_chart --version` prints it. */
#define CONTROL_CHART_VERSION "1.3.0"

#ifdef __cplusplus
extern "C" {
#endif

/* Kinds. */
#define CONTROL_CHART_DUPLICATE          1
#define CONTROL_CHART_CHECK              2
#define CONTROL_CHART_SPIKE              3

/* Verdicts, and what each means: control_chart_verdict_text gives the same text. */
#define CONTROL_CHART_VERDICT_NONE       0 /* none */
#define CONTROL_CHART_VERDICT_CONTROL    1 /* beyond a control limit */
#define CONTROL_CHART_VERDICT_WARNING    2 /* two in a row beyond the warning limit on one side */
#define CONTROL_CHART_VERDICT_TREND      3 /* seven in a row rising or falling */
#define CONTROL_CHART_VERDICT_SIDE       4 /* seven in a row on one side of the mean */

/* Answers, and what each means: control_chart_refusal_text gives the same text. */
#define CONTROL_CHART_DONE               0 /* done */
#define CONTROL_CHART_NO_KIND            1 /* the kind is not 1, 2 or 3 */
#define CONTROL_CHART_WORD_COUNT         2 /* there are not 15 to 32 words */
#define CONTROL_CHART_BASE_RANGE         3 /* a word given for the base is out of range */
#define CONTROL_CHART_OTHER_KIND         4 /* the reading is of another kind than the chart */
#define CONTROL_CHART_READING_RANGE      5 /* a reading is not in 0..1000000000 */
#define CONTROL_CHART_DIVISOR_0          6 /* the divisor is 0 */
#define CONTROL_CHART_WORD_RANGE         7 /* the word is out of range */
#define CONTROL_CHART_DUE                8 /* a reanalysis or a correction is due */
#define CONTROL_CHART_FULL               9 /* the series is full: it has 366 words */
#define CONTROL_CHART_NO_REANALYSIS_DUE 10 /* no reanalysis is due */
#define CONTROL_CHART_NO_CORRECTION_DUE 11 /* no correction is due */
#define CONTROL_CHART_TOO_FEW           12 /* base and series together have fewer than 15 words */
#define CONTROL_CHART_NOT_A_FORM        13 /* the bytes are not a stored form */
#define CONTROL_CHART_NOT_SOUND         14 /* there is no chart, or it is not sound */
#define CONTROL_CHART_NO_ROOM           15 /* the buffer is too short */
#define CONTROL_CHART_TOO_FEW_STAND     16 /* fewer than 15 words stand after rejection */

/* The bytes of the longest stored form: 32 words in the base and 366 in the series. */
#define CONTROL_CHART_FORM_MOST 814

/* The doubles of a kind 2 or 3 chart; a kind 1 chart has three. */
#define CONTROL_CHART_LINES_MOST 5

/* The bytes that control_chart_against_lines answers. */
#define CONTROL_CHART_BEYOND 4

/* Room for every text of the functions below, with its 0 byte. */
#define CONTROL_CHART_TEXT_MOST 64

/* Forms the word of the readings, to collect a base. *word: the word.
 * Refuses with 1, 5, 6, 7. */
uint16_t control_chart_word(uint32_t kind, int64_t a, int64_t b, int64_t c, int16_t *word);

/* Builds a new chart from `count` words of one kind, as control_chart_word gives them. Each round works out the control limits of the words
 * left and removes the words beyond them; the last round removes nothing. At least 15 words have to stand after it. The form goes to the
 * front of `chart`. *size: the number of its bytes; *rounds: the number of rounds; *removed: the number of words removed. What `chart` and
 * *size held before does not matter.
 * Refuses with 1, 2, 3, 16, 15. */
uint16_t control_chart_build(uint32_t kind, const int16_t *words, size_t count,
                             uint8_t *chart, size_t room, size_t *size,
                             size_t *rounds, size_t *removed);

/* Forms the word of the readings, judges it and adds it to the series. The form becomes two bytes longer. *word: the word; *verdict: the
 * first of these that applies, in this order:
 *     1   beyond a control limit: a reanalysis is due
 *     2   this word and the one before it in the series are beyond the warning limit on the same side: a reanalysis is due
 *     4   kinds 2 and 3: the last seven words of the series are all above the mean, or all below it: a correction is due
 *     3   the last seven words of the series rise strictly, or fall strictly: a reanalysis is due
 *     0   none of these: the chart stays free
 * Refuses with 13, 14, 8, 9, 4, 5, 6, 7, 15. */
uint16_t control_chart_post(uint8_t *chart, size_t room, size_t *size,
                            uint32_t kind, int64_t a, int64_t b, int64_t c,
                            int16_t *word, uint16_t *verdict);

/* Takes the readings of the sample, analysed again. *word: the word; *passed: 1 or 0. 1: the reanalysis passes, its word replaces the last
 * word of the series, and the chart is free. 0: it fails, the series stays, and a correction is due. It passes if its word is not beyond a
 * control limit and
 *     for verdict 2   not beyond a warning limit either;
 *     for verdict 3   less than S from the mean, or, if the seven words rise (fall), below (above) the last word but one of the series;
 *     for verdict 4   less than S from the mean, or not on the side of the mean on which the seven words are.
 * Refuses with 13, 14, 10, 4, 5, 6, 7. */
uint16_t control_chart_reanalyse(uint8_t *chart, size_t room, size_t *size,
                                 uint32_t kind, int64_t a, int64_t b, int64_t c,
                                 int16_t *word, uint8_t *passed);

/* Records that the method was put right. A reanalysis is due.
 * Refuses with 13, 14, 11. */
uint16_t control_chart_correct(uint8_t *chart, size_t room, size_t *size);

/* Makes a new base from the last words of the base followed by the series, in rounds as in building. It tries the last 15 words, then the
 * last 16, and so on up to 32 or all there are, and takes the first of which at least 15 stand. The series is then empty, and the form is
 * not longer than before. *size as in building; *rounds and *removed: those of the words taken.
 * Refuses with 13, 14, 8, 12, 16. */
uint16_t control_chart_renew(uint8_t *chart, size_t room, size_t *size,
                             size_t *rounds, size_t *removed);

/* Gives the lines for a plotter, in hundredths of a percent as words are. Each is a whole number of 256ths: an upper limit rounded down, a
 * lower limit up, the mean down. A kind 1 chart has three: mean, upper warning limit, upper control limit (its lower line is always 0). The
 * others have five: mean, lower warning, upper warning, lower control, upper control limit. They go to the front of `lines`, which has room
 * for `room` doubles. *count: how many. Doubles after them stay as they are.
 * Refuses with 13, 14, 15. */
uint16_t control_chart_lines(const uint8_t *chart, size_t size,
                             double *lines, size_t room, size_t *count);

/* Tells whether a word is beyond each limit, 1 or 0: beyond[0] the lower warning, beyond[1] the upper warning, beyond[2] the lower control,
 * beyond[3] the upper control limit. For a kind 1 chart beyond[0] and beyond[2] are 0. A word on a limit is not beyond it. The doubles of
 * control_chart_lines and the exact limits give the same answer. Any word from -32768 to 32767 is compared, also one out of the kind's
 * range. Bytes after the four stay as they are.
 * Refuses with 13, 14, 7 (a number outside -32768..32767), 15 (room below 4). */
uint16_t control_chart_against_lines(const uint8_t *chart, size_t size, int32_t word,
                                     uint8_t *beyond, size_t room);

/* Tests whether the bytes are the stored form of a sound chart (docs/RULES.md, 9.5). If version 1.0.0 left a chart open under verdict 3,
 * though 4 applies, the chart is not sound in later versions: close it with version 1.0.0 (docs/C.md, Keeping a chart).
 * Refuses with 13, 14. */
uint16_t control_chart_check(const uint8_t *chart, size_t size);

/* Give the text of an answer, of a verdict, and of the version: CONTROL_CHART_VERSION of the library that is linked. The text goes to the
 * front of `text`, with a 0 byte after it. `room` is the number of bytes of `text`. Bytes after the 0 byte stay as they are. A number that
 * is not an answer has the text "no such number", one that is not a verdict "no such verdict".
 * Each refuses with 15 if `room` is not more than the text's length. */
uint16_t control_chart_refusal_text(uint32_t number, char *text, size_t room);
uint16_t control_chart_verdict_text(uint32_t verdict, char *text, size_t room);
uint16_t control_chart_version(char *text, size_t room);

/* THE STORED FORM, for programs that read it themselves. It is three records. Every number has two bytes, the lower first; words are in
 * two's complement. The first number of a record is its length in bytes, not counting itself. The second is the kind of the record.
 *
 *     bytes 0..9     8; 1; kind; status (0 free, 1 a reanalysis is due, 2 a correction is due); open verdict (0 when free)
 *     bytes 10..13   2 + 2 n; 2
 *     then           the n words of the base, 10 to 32
 *     then           2 + 2 m; 3; the m words of the series, 0 to 366
 */

#ifdef __cplusplus
}
#endif

#endif
