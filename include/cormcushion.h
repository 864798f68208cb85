/* Cormcushion for callers in C, and in whatever can call C: link libcormcushion.a, which `bash callers/build` makes for x86-64
 * of the crate cormcushion_c. It calls memcpy and memset, and nothing else.
 *
 * Every function takes every input that its parameters can hold, returns, and writes to nothing but what is lent to it. What nothing
 * checks is the call itself: a pointer must lead to as many elements as the count behind it says, or as its parameter's brackets say,
 * and be aligned as its type asks; what is lent to be written must not overlap anything else that is passed. An empty list may have
 * any pointer.
 *
 * Threads: the library keeps nothing between calls, so that several threads may call it at once, so long as no call uses what another
 * is lent to write.
 *
 * Stack: have 192 kB free for a function that lists or checks a file, 96 kB for cormcushion_read_day, 32 kB for
 * cormcushion_month_statement, 16 kB for the others; no proof speaks of it. They take 176, 87, 17 and 6 kB at most: so much do the
 * frames in the archive come to along every chain of calls, none of which comes back to itself. Before there was tag 9 so counted
 * frames were as deep as calls wrote on stacks filled with a pattern. Where memcpy and memset are bound at their first call, the
 * loader took 3.5 kB more for it. Where the stack is shorter the process ends at its guard page.
 *
 * The answer is one number in fixed decimal digits: the last fifteen are a figure, the two before them 01's refusal number, those
 * before these a kind, which is 0 today. Where the number is 0 the call is accepted and the figure is its answer; else the call is
 * refused, the figure is the refusal's place, and everything lent is as it was. docs/RULES.md says what each number means. A place is
 * the first byte of a field in a file, a row or an hour from 0 in a list, else 0; it does not say which list of a call is meant.
 * Figures and places have room in their digits for every input: in a file of any length the place is at most 40,975. */
#ifndef CORMCUSHION_H
#define CORMCUSHION_H

#include <stddef.h>
#include <stdint.h>

#ifdef __cplusplus
extern "C" {
#endif

#define CORMCUSHION_FIGURE(answer) ((answer) % 1000000000000000u)
#define CORMCUSHION_NUMBER(answer) ((answer) / 1000000000000000u % 100u)
#define CORMCUSHION_KIND(answer) ((answer) / 100000000000000000u)

/* The listing of a day file's shares, as the program `shares` prints it.
 * Reads:    file, the bytes of a day file.
 * Writes:   the text to the front of `text`; no 0 byte follows it. 2,048 bytes hold every listing.
 * Figure:   the text's length in bytes.
 * Refuses:  what the reader refuses, at the field's first byte; 7 at 0 where the text is longer than the room. */
uint64_t cormcushion_list_shares(const uint8_t *file, size_t file_length, uint8_t *text, size_t text_room);

/* The listing of a day file's expected overrun charges, as the program `charges` prints it.
 * Reads:    file; the rate in hundred-thousandths of a dollar, Schedule 2's being 359000.
 * Writes:   the text to the front of `text`. 8,192 bytes hold every listing.
 * Figure:   the text's length in bytes.
 * Refuses:  3 at 0 for a rate above 100,000,000, before the file, whose head can be refused by 3 at 0 too; else as
 *           cormcushion_list_shares. */
uint64_t cormcushion_list_charges(const uint8_t *file, size_t file_length, uint32_t rate, uint8_t *text, size_t text_room);

/* The listing of the hours at a day file's points, as the program `points` prints it; a point's own refusal is a line of the text.
 * Reads:    file.
 * Writes:   the text to the front of `text`. 16,384 bytes hold every listing.
 * Figure:   the text's length in bytes.
 * Refuses:  as cormcushion_list_shares. */
uint64_t cormcushion_list_points(const uint8_t *file, size_t file_length, uint8_t *text, size_t text_room);

/* The statement of a shipper's month: its days are handed in one after another, then the month is closed.
 * Reads:    numbers, eight for each day: the day's own; the hourly, the twelve-hourly, the daily receipt and the daily delivery
 *           overrun and the chargeable quantity, in megajoules; the variation and the request charge, in cents.
 * Writes:   the text to the front of `text`: a line for each day, its eight numbers parted by single spaces; then TOTAL and the
 *           sums of the last seven. 2,916 bytes hold every statement.
 * Figure:   the text's length in bytes.
 * Refuses:  9 at 0 where the count of the numbers is no multiple of eight; the first day at fault, at its row from 0: 3 for a 32nd
 *           day, an own number above 4,294,967,295, a figure larger than the rules' bounds can yield or a chargeable quantity that
 *           is not the greatest of the four overruns, 5 for a day not later than the one before; 7 at 0 where the text is longer
 *           than the room. */
uint64_t cormcushion_month_statement(const uint64_t *numbers, size_t numbers_count, uint8_t *text, size_t text_room);

/* The check of a day file.
 * Reads:    file.
 * Writes:   nothing.
 * Figure:   how many numbers the day's tables have: the room that cormcushion_read_day needs.
 * Refuses:  1 to 5, at the field's first byte. */
uint64_t cormcushion_check_day(const uint8_t *file, size_t file_length);

/* A day file's numbers.
 * Reads:    file.
 * Writes:   every number of the day's tables, row by row in the file's order, to the front of `numbers`; to `day` the day's number,
 *           the free flow and the compressor capacity, then how many shippers, points, entries, meters and rows of excused hours
 *           there are.
 * Figure:   how many numbers there are; 10,720 at most.
 * Refuses:  as cormcushion_check_day; 7 at 0 where there are more numbers than the room. */
uint64_t cormcushion_read_day(const uint8_t *file, size_t file_length, uint32_t day[8], size_t *numbers, size_t numbers_room);

/* One sharing round, in gigajoules.
 * Reads:    the capacity, and for each row its weight and its need.
 * Writes:   each row's share to the front of `shares`.
 * Figure:   the level.
 * Refuses:  9, 3, 7; a row's 3 at the row from 0. */
uint64_t cormcushion_share_round(uint32_t capacity, const uint32_t *weights, size_t weights_count, const uint32_t *needs,
                                 size_t needs_count, uint32_t *shares, size_t shares_room);

/* A day's shares, in gigajoules.
 * Reads:    both capacities, and five lists with a figure for each shipper.
 * Writes:   each class's shares to the front of its list; to `levels` those of rounds one, two and three, auction, lower tier.
 * Figure:   LEFT.
 * Refuses:  9, 3, 4, 7; a row's 3 or 4 at the row from 0. */
uint64_t cormcushion_share_day(uint32_t free_flow, uint32_t compressor, const uint32_t *firm_mdq, size_t firm_mdq_count,
                               const uint32_t *auction_mdq, size_t auction_mdq_count, const uint32_t *firm_schedule,
                               size_t firm_schedule_count, const uint32_t *auction_schedule, size_t auction_schedule_count,
                               const uint32_t *lower_tier_schedule, size_t lower_tier_schedule_count, uint32_t *firm,
                               size_t firm_room, uint32_t *auction, size_t auction_room, uint32_t *lower_tier,
                               size_t lower_tier_room, uint64_t levels[5]);

/* One shipper's overruns of a day, in megajoules, and their charge.
 * Reads:    the rate in hundred-thousandths of a dollar; P and M, yesterday's and today's Adjusted MDQ in gigajoules; the hours in
 *           megajoules; the schedules in gigajoules: forward receipt, forward delivery, backhaul receipt, backhaul delivery; the
 *           backhaul metered in megajoules: receipt, delivery.
 * Writes:   to `overruns` the hourly, the twelve-hourly, the daily receipt and the daily delivery overrun, and the greatest.
 * Figure:   the charge for the greatest, in cents.
 * Refuses:  3: at 0 the rate or another single figure, else the hour from 0 in its own list. */
uint64_t cormcushion_overruns(uint32_t rate, uint32_t p, uint32_t m, const uint64_t yesterday[11], const uint64_t delivered[24],
                              const uint64_t received[24], const uint32_t schedules[4], const uint64_t metered[2],
                              uint64_t overruns[5]);

/* The same with what is excused in each hour, in megajoules (cl. 5.4): it is taken off the metered hour for the hourly and the
 * twelve-hourly overrun; the daily ones go on counting it. Where nothing is excused the answer is that of cormcushion_overruns.
 * Reads:    as cormcushion_overruns; the excused quantities, hour by hour.
 * Writes:   as cormcushion_overruns.
 * Figure:   as cormcushion_overruns.
 * Refuses:  as cormcushion_overruns; then 3 at the hour from 0 where more is excused than was metered, the lists in the order
 *           yesterday, delivered, received. */
uint64_t cormcushion_overruns_excused(uint32_t rate, uint32_t p, uint32_t m, const uint64_t yesterday[11],
                                      const uint64_t delivered[24], const uint64_t received[24], const uint32_t schedules[4],
                                      const uint64_t metered[2], const uint64_t excused_yesterday[11],
                                      const uint64_t excused_delivered[24], const uint64_t excused_received[24],
                                      uint64_t overruns[5]);

/* A day's whole energies and volumes from a flow computer's readings.
 * Reads:    for each hour its kind, 0 measured, 1 substituted, 2 missing, and two numbers: of a measured hour the volume in cubic
 *           metres and the heating value in megajoules per cubic metre; of a substituted one the energy in megajoules, the second
 *           being passed over; of a missing one both are.
 * Writes:   each hour's energy in whole megajoules, which is what cormcushion_overruns takes, and its volume in whole cubic metres,
 *           both rounded down; to `volume` the sum of the whole volumes. A substituted hour has volume 0, a missing one the energy
 *           and the volume of the hour before it.
 * Figure:   the sum of the whole energies.
 * Refuses:  the earliest hour at fault, at the hour from 0: 3 where a number that counts is not a number, infinite or below zero
 *           (minus zero is zero), where a volume, a product or an energy is 100,000,001 or more, and for any other kind; 5 at 0 for a
 *           first hour that is missing.
 * Asks:     that the processor rounds to nearest and takes subnormal numbers as they are, as it does unless a program has set it
 *           otherwise (fesetround, -ffast-math). */
uint64_t cormcushion_readings(const uint8_t kinds[24], const double firsts[24], const double seconds[24], uint64_t energies[24],
                              uint64_t volumes[24], uint64_t *volume);

#ifdef __cplusplus
}
#endif

#endif
