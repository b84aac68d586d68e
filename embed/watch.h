/*
 * WATCH for programs in C: runs a log of calls on a sheet of rules, and on the sheet's network, which
 * it writes in either of its two forms.
 *
 * The functions are those of crates/embed, proved to answer as document 01 says for all bytes. Link
 * crates/embed/out/libembed.a, which `rt lib` in crates/embed makes, for x86-64 Linux. They keep nothing
 * between calls and allocate nothing, so several threads may call them at once.
 *
 * What the caller owes, and what nothing checks:
 *  - Bytes are lent as a pointer and, right behind it, how many there are. No pointer is NULL, even
 *    where that number is 0. All the bytes are there; those of `out` may be written.
 *  - What a function writes to (out, size, first, second, third, fourth, count) overlaps nothing else
 *    that the call is given, and nobody else reads or writes it during the call.
 *  - There are 64 KiB of stack. At most 54 KB were used, to run a network of version 3 with a condition
 *    that is `and` 511 deep; without version 3 at most 26 KB.
 *
 * Refusals are numbers from 1 to 21: the table "Refusals" in README.md at the top of the repository.
 */
#ifndef WATCH_H
#define WATCH_H

#include <stddef.h>
#include <stdint.h>

#ifdef __cplusplus
extern "C" {
#endif

/* What watch_run and watch_run_network return. */
#define WATCH_CLEAN 0u
#define WATCH_VIOLATED 1u
#define WATCH_REFUSED 2u
#define WATCH_EVENT_REFUSED 3u

/* The state or the triple of a verdict that has none. */
#define WATCH_NONE 256u

/* A buffer of this many bytes holds the network of any accepted sheet. */
#define WATCH_MOST_NETWORK 8192

/* A buffer of this many bytes holds the network for the card of any sheet that has one. */
#define WATCH_MOST_CARD 65535

/* A buffer of this many bytes holds any two lines. */
#define WATCH_MOST_LINES 300

/*
 * Runs a log on a sheet, from the sheet's fresh state, until a verdict, a refused event or the end.
 *
 *   sheet, sheet_length            the sheet's bytes: at most 6,782 are accepted
 *   log, log_length                the log's bytes
 *   first, second, third, fourth   are each written in every case, as below
 *   count                          how many operators and operands the run evaluated, summed over the
 *                                  events taken; 0 where the sheet or the log is refused, and so
 *                                  written in every case. An event counts at most 4,416
 *
 * returns               *first              *second             *third              *fourth
 * WATCH_CLEAN           events taken        the main state      open calls          0
 * WATCH_VIOLATED        the position of     the bad state, or   the lowest failing  the position of the
 *                       the event, from 1   WATCH_NONE          triple, or          entry of the call that
 *                                                               WATCH_NONE          broke it, from 1; 0
 *                                                                                   where no triple failed
 * WATCH_REFUSED         the refusal of the  0                   0                   0
 *                       sheet or the log
 * WATCH_EVENT_REFUSED   the refusal         the record of the   0                   0
 *                                           event in the log,
 *                                           from 1
 */
uint32_t watch_run(const uint8_t *sheet, size_t sheet_length, const uint8_t *log, size_t log_length,
                   uint32_t *first, uint32_t *second, uint32_t *third, uint32_t *fourth,
                   uint64_t *count);

/*
 * The same on a network, as watch_translate or watch_translate_card writes it, cut to its length: a
 * network's template stands for the triple of its number.
 *
 *   network, network_length   the network's bytes: at most 7,904 are accepted of version 2, at most
 *                             65,535 of version 3
 *   the others                as for watch_run; an event counts at most 6,464 on a network of version 2,
 *                             and 102,464 on one of version 3
 *
 * returns as watch_run does, with the refusals of a network.
 */
uint32_t watch_run_network(const uint8_t *network, size_t network_length, const uint8_t *log,
                           size_t log_length, uint32_t *first, uint32_t *second, uint32_t *third,
                           uint32_t *fourth, uint64_t *count);

/*
 * Translates a sheet into its network.
 *
 *   sheet, sheet_length   the sheet's bytes
 *   out, out_length       where the network is to go: WATCH_MOST_NETWORK bytes are always enough
 *   size                  how many bytes the network has
 *
 * returns 0, with the network at the front of out, the rest of out as it was, and its length in *size;
 * or the refusal (1 to 8, or 19: out is shorter than the network), with out and *size as they were.
 */
uint32_t watch_translate(const uint8_t *sheet, size_t sheet_length, uint8_t *out, size_t out_length,
                         size_t *size);

/*
 * Translates a sheet into its network for the conflict monitor card, version 3: whatever the values,
 * at most one of the transitions of a state, kind and unit has a condition that holds, so that the card
 * may try them in any order. A log's run on it comes to the same as on the sheet.
 *
 *   sheet, sheet_length, size   as for watch_translate
 *   out, out_length             where the network is to go: WATCH_MOST_CARD bytes are always enough
 *
 * returns as watch_translate does; besides 1 to 8 and 19 there is, before 19, 21: a joined condition
 * would have over 1,024 bytes, or the network over 65,535.
 */
uint32_t watch_translate_card(const uint8_t *sheet, size_t sheet_length, uint8_t *out,
                              size_t out_length, size_t *size);

/*
 * Writes what the program `watch` prints for an input: a line for the run on the sheet and a line for
 * the run on its network, each with its newline at the end; or "too long" for over 65,536 bytes.
 *
 *   input, input_length   a sheet and, right behind it, a log
 *   out, out_length       where the text is to go: WATCH_MOST_LINES bytes are always enough; as much of
 *                         the text is written as there is room for, and the rest of out stays as it was
 *
 * returns how many bytes the text has, be there room for them or not. No 0 is written behind the text.
 */
size_t watch_lines(const uint8_t *input, size_t input_length, uint8_t *out, size_t out_length);

#ifdef __cplusplus
}
#endif

#endif
