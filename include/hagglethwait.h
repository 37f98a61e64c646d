/* Hagglethwait, a review evaluator for recorded safety projects: its calls for C and for every language that calls C.
 *
 * The library is target/staticlib/libhagglethwait.a (`examples/archive`), for x86-64 Linux. It keeps nothing
 * between calls, allocates nothing and calls nothing but memcpy and memset, and every call returns. Calls that write to
 * different buffers may run at the same time.
 *
 * What is promised below is proved, for every content and every length of every buffer
 * (crates/hagglethwait_c/src/lib.rt has the promises as equations, Calls.antt and Ledgers.antt in
 * crates/hagglethwait/specs and Ledger.antt in crates/year/specs the limits by name). It rests on what a caller in C has to see to:
 *   - a pointer is not null, also where its length is 0, and points to as many bytes as its length says, or to a whole
 *     array or number of its type, aligned as C aligns it;
 *   - a buffer that a call writes (not `const`) overlaps no other argument of that call;
 *   - a length is at most PTRDIFF_MAX.
 *
 * The numbers of refusals, the lowest that applies:
 *    1 file under 40 or over 65,536 bytes   5 B: blocks              9 T: not a whole number of records
 *    2 table of contents                    6 execution numbers     10 state, outputs or findings not of the exact size
 *    3 G: device and groups                 7 links                 11 state not well formed
 *    4 I: external inputs                   8 O: external outputs   12 cycle record
 *
 * Those of a ledger, the lowest that applies; a ledger may have any length:
 *   21 ledger under 96 bytes                                        23 a finding's value
 *   22 table of contents, or a month that is not whole findings     24 over 4,095 findings in a month
 */
#ifndef HAGGLETHWAIT_H
#define HAGGLETHWAIT_H

#include <stddef.h>
#include <stdint.h>

#ifdef __cplusplus
extern "C" {
#endif

/* Checks a case file. Answers 0 if it is accepted, or the number, 1 to 9, with which it is turned down. */
uint8_t hagglethwait_check(const uint8_t *file, size_t file_size);

/* The sizes in bytes of the three buffers of an accepted file's cycles: its state (1 for each group and 16 for each
 * block), its outputs (4 for each external output) and its findings (16 for each block). Answers 0 and stores the
 * three, or answers the number, 1 to 9, with which the file is turned down, and stores nothing. An accepted file has at
 * most 8 groups, 64 blocks and 64 external outputs, so the sizes are at most 1,032, 256 and 1,024. */
uint8_t hagglethwait_sizes(const uint8_t *file, size_t file_size, uint32_t *state_size, uint32_t *outputs_size,
                           uint32_t *findings_size);

/* Writes the fresh state of an accepted file into `state`, which has the exact size. Answers 0, or the number, 1 to 10,
 * with which the call is turned down, and writes nothing. The fresh state is well formed: a cycle takes it. */
uint8_t hagglethwait_fresh(const uint8_t *file, size_t file_size, uint8_t *state, size_t state_size);

/* Runs one cycle of the file's project from `state`, with one cycle record, which need not stand in the file.
 *
 * Accepted, it answers the count of findings, 0 to 64, and leaves in `state` the state after the cycle, which the next
 * cycle takes, in `outputs` 4 bytes for each external output, and in `findings` 16 bytes for each finding, in order of
 * block number, and zeros behind them. Turned down, it answers minus the number, -1 to -12, and changes no byte of the
 * three. All numbers in buffers are little endian. A finding is: block (1 byte), group (1), text ID (2), diagnosis (2),
 * zero (2), first and second input (4 each). */
int32_t hagglethwait_cycle(const uint8_t *file, size_t file_size, const uint8_t *record, size_t record_size,
                           uint8_t *state, size_t state_size, uint8_t *outputs, size_t outputs_size, uint8_t *findings,
                           size_t findings_size);

/* The table of a ledger, twice: row 0 with script closings, row 1 without them, of the findings that a person closed
 * alone. A row has the twelve months of the year, in order.
 *
 * Accepted, it answers 0 and stores for each month the count of its findings, 0 to 4,095, that of the dismissed ones,
 * and the rate, the 64-bit float nearest to dismissed by findings; and for each row its bend, the number of a month, 1
 * to 11, or 0 where there is none, which is where fewer than two months of the row have findings. The bend is, of the
 * months with a finding up to and with them and one after them, that where the dismissed share of all later findings
 * less that of all others is largest, though it be below 0; the earliest of equal ones. A month without findings has no
 * rate: what is stored is then 0. Turned down, it answers the number, 21 to 24, and changes nothing of the four. */
uint8_t hagglethwait_ledger(const uint8_t *file, size_t file_size, uint32_t findings[2][12],
                            uint32_t dismissed[2][12], double rates[2][12], uint8_t bends[2]);

#ifdef __cplusplus
}
#endif

#endif
