/* The calls of Nentuvar for C: numbers read and written, bench files judged and run. They stand in libcalls.a, which
 * `rt lib`, run in crates/calls, writes to crates/calls/out/. What each call answers and leaves is proved, for every
 * content and every length (crate `calls`). docs/RULES.md has the rules.
 *
 * The answer. A call fills the five numbers of `answer`, whatever they held: with 1, or 2 where a run ends by exit, or 4
 * and the error where it ends by a reject, and what it tells; or with 0, the number of a refusal and its place, a byte
 * offset counted from 0. The numbers behind these are 0.
 *
 * What the caller owes. A pointer and the length behind it name so many bytes or numbers that are there, and `answer`
 * names five numbers. No pointer is null, even beside a length of 0. What a call may write to overlaps nothing else that
 * it is given. Until the call returns nobody else uses that, and nobody writes to what the call reads. Calls keep
 * nothing, so that several threads may call at once.
 */
#ifndef NENTUVAR_H
#define NENTUVAR_H

#include <stddef.h>
#include <stdint.h>

#ifdef __cplusplus
extern "C" {
#endif

/* How many numbers an answer has. */
#define NENTUVAR_ANSWER 5

/* How many working slots a run asks for. */
#define NENTUVAR_WORKING 8192

/* How many numbers a store has at most: a valid mark and 16 fields for each of 32 headers. */
#define NENTUVAR_STORE 544

/* Takes `length` bytes that hold numbers, and `count` slots for these.
 * Answers 1 and how many numbers the bytes hold. Or refuses:
 *   1 at place 0: no bytes, or more than 4,096;
 *   2 at the first byte of a number: the bytes end inside it;
 *   3 at the first byte of a number: its last byte is 0 and not its only one, or its tenth byte is not 1;
 *   13 at place 0: fewer slots than numbers.
 * The first bad number decides between 2 and 3; 13 comes last.
 * Leaves the numbers in the first slots, and the slots behind them as found; refused, all slots as found.
 */
void nentuvar_read(const uint8_t *bytes, size_t length, uint64_t *slots, size_t count,
                   uint64_t answer[NENTUVAR_ANSWER]);

/* Takes `count` numbers, and `length` bytes for these, each number in the fewest bytes.
 * Answers 1 and how many bytes the numbers take. Or refuses:
 *   13 at place 0: fewer bytes than that.
 * Leaves the numbers in the first bytes, and the bytes behind them as found; refused, all bytes as found.
 * No numbers take no bytes. More than 4,096 bytes are written too, though nentuvar_read refuses them.
 */
void nentuvar_write(const uint64_t *numbers, size_t count, uint8_t *bytes, size_t length,
                    uint64_t answer[NENTUVAR_ANSWER]);

/* Takes the `length` bytes of a bench file.
 * Answers 1, the ceiling, and how many numbers the store has. No run of the program takes more steps than the ceiling.
 * Or refuses with a number from 1 to 12, or 16: at the first byte of the number at fault; at `length` where a number is
 * missing; at 0 for refusals 1 and 9, which are about the whole file.
 * Leaves everything but the answer as found.
 */
void nentuvar_judge(const uint8_t *bytes, size_t length, uint64_t answer[NENTUVAR_ANSWER]);

/* Takes the `length` bytes of a bench file, `count` result slots, as many at least as the store has numbers, and `room`
 * working slots, 8,192 at least.
 * Answers how the run ended, 1 done, 2 by exit, or 4 by a reject and its error, then its steps, the ceiling, and how
 * many numbers the store has. Or refuses:
 *   1 to 12 and 16 at their places: as nentuvar_judge does;
 *   13 at place 0: fewer slots than that.
 * 13 comes last; 14 does not occur, since 8,192 working slots suffice for every file that is accepted. What the slots
 * held changes no answer.
 * Leaves the final store in the first result slots and the first 8,192 working slots at 0, and the slots behind both as
 * found; refused, all slots as found.
 */
void nentuvar_run(const uint8_t *bytes, size_t length, uint64_t *results, size_t count, uint64_t *working, size_t room,
                  uint64_t answer[NENTUVAR_ANSWER]);

#ifdef __cplusplus
}
#endif

#endif
