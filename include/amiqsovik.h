/* Amiqsovik's hash index: the calls for C, in target/staticlib/libamiqsovik.a (`tools/archive`), for x86-64
 * Linux.
 *
 * An index is a store: one byte array of N blocks of 512 bytes, N from 4 to 1,024, that the caller owns. It holds
 * pairs of a 32-bit hash code and a reading's place: a block number (32 bits) and an offset (16 bits). A pair is
 * held once or not at all. Beside it is a journal: an array of 16 blocks, for power cuts (below).
 *
 * What holds of every call:
 *
 * - Any bytes and any numbers may be handed in. Each call ends, and answers one 64-bit word (below).
 * - Only the bytes of the arrays that are handed in are read, and only those of arrays that are not const are
 *   written. Nothing is allocated, and no state is kept from call to call: the arrays' bytes are all there is. The
 *   library needs memcpy, memmove and memset of the host, and nothing else.
 * - A call takes at most 64 KiB of stack. That is not proved: rust/compare/tests/stack.rs measures it.
 * - An array is a pointer and its length in bytes. It needs no alignment. With length 0 the pointer may be NULL and
 *   is not followed. With any other length it points to that many bytes, all of them initialised.
 * - Two arrays of one call must not overlap. While a call runs, nobody else writes to its arrays, and nobody else
 *   reads those that are not const. Calls on different arrays may run at the same time.
 * - A refused call writes nothing: store, journal, output, result and plan stay as they were. A refused gauge alone
 *   shows 0 twice.
 *
 * Each call's answer and the bytes afterwards are proved equal to what a definition gives, for all inputs:
 * crates/amiqsovik_c/src. That this header fits those functions is not proved.
 */
#ifndef AMIQSOVIK_H
#define AMIQSOVIK_H

#include <stddef.h>
#include <stdint.h>

#ifdef __cplusplus
extern "C" {
#endif

/* The version of this header, and of the archive made from the same sources. 1.0.0 is document 01, whole; 1.0.1 is
 * quicker (request 2026-02); 2.0.0 has a store number (request 2026-03); 3.0.0 formats no store in use unless told to
 * overwrite, and has amiqsovik_in_use (request 2026-04); 3.1.0 takes stores of 129 to 1,024 blocks (request 2026-09);
 * 3.1.1 finds pairs in long chains quicker (request 2026-10); 3.2.0 has amiqsovik_squeeze (request 2026-01); 3.2.1
 * promises that splits finish in busy hours (request 2026-12), which they did before; 4.0.0 has a journal, which
 * insert, remove, work and squeeze take (request 2026-05); 4.1.0 has amiqsovik_gauge (request 2026-07).
 * The first number goes up when a program that was right may have to change: a call's arguments, the answer to a call
 * that was accepted, the bytes of a store. The second goes up when calls are added, or take what they refused, the
 * third when neither is so.
 *
 * The bytes of stores are the same since 2.0.0; before 3.1.0 more than 128 blocks are LENGTH. A store made before 4.0.0
 * is taken with a new, wiped journal, but what is promised of cuts starts at a format. A store that was sound for 1.0.0
 * or 1.0.1 is DAMAGED since then, with block 0: the old check of that block is never the new one. No call converts it:
 * a host formats a new store and inserts the pairs again, from its own records. It is not IN_USE either: format takes
 * it without a word. */
#define AMIQSOVIK_VERSION_MAJOR 4
#define AMIQSOVIK_VERSION_MINOR 1
#define AMIQSOVIK_VERSION_PATCH 0
#define AMIQSOVIK_VERSION (AMIQSOVIK_VERSION_MAJOR * 10000 + AMIQSOVIK_VERSION_MINOR * 100 + AMIQSOVIK_VERSION_PATCH)
#define AMIQSOVIK_VERSION_TEXT "4.1.0"

/* A word that nobody looks at may be a refusal: compilers that can do so warn. */
#if defined(__GNUC__)
#define AMIQSOVIK_MUST_USE __attribute__((warn_unused_result))
#else
#define AMIQSOVIK_MUST_USE
#endif

/* Two arrays of one call must not overlap. */
#if !defined(__cplusplus)
#define AMIQSOVIK_RESTRICT restrict
#elif defined(__GNUC__) || defined(_MSC_VER)
#define AMIQSOVIK_RESTRICT __restrict
#else
#define AMIQSOVIK_RESTRICT
#endif

#define AMIQSOVIK_BLOCK_BYTES 512
#define AMIQSOVIK_MIN_BLOCKS 4
#define AMIQSOVIK_MAX_BLOCKS 1024
#define AMIQSOVIK_MATCH_BYTES 6   /* a match in the output of a lookup */
#define AMIQSOVIK_RESULT_BYTES 28 /* what amiqsovik_standing writes */
#define AMIQSOVIK_JOURNAL_BYTES 8192
#define AMIQSOVIK_PLAN_BYTES 5632

/* ---- The word that a call answers: bits 0..7 the number of the answer, bits 8..15 the stop of work or squeeze, or the
 * part of look or do_store, bits 16..31 the steps of work or squeeze, bits 32..63 what the answer gives besides. Stop,
 * part and steps are 0 in the word of any other call, but for the stop of their plans. */

static inline uint32_t amiqsovik_number(uint64_t word) { return (uint32_t)(word & 0xFF); }
static inline uint32_t amiqsovik_stop(uint64_t word) { return (uint32_t)(word >> 8 & 0xFF); }
static inline uint32_t amiqsovik_part(uint64_t word) { return (uint32_t)(word >> 8 & 0xFF); }
static inline uint32_t amiqsovik_steps(uint64_t word) { return (uint32_t)(word >> 16 & 0xFFFF); }
static inline uint32_t amiqsovik_gives(uint64_t word) { return (uint32_t)(word >> 32); }

/* The numbers of the answers, 0 to 8 as in document 01's table. What a number gives besides is 0 where nothing is
 * said of it. Where several fit, the call answers the first of 255, 1, 13, 2, 14, 3, 4, 8, 5 or 6, 7; format answers
 * the first of 1, 2, 12, and squeeze, or its plan, the first of 255, 1, 13, 2 (the budget), 14, 3, 4, 2 (the bucket),
 * 11. Later versions may have further numbers: whatever is not DONE is a refusal. */
#define AMIQSOVIK_DONE 0
#define AMIQSOVIK_LENGTH 1         /* the store is not a multiple of 512 bytes, or N is outside 4..1024 */
#define AMIQSOVIK_NUMBER 2         /* an argument is outside its range: see the calls */
#define AMIQSOVIK_DAMAGED 3        /* a block's check is wrong; gives the lowest such block */
#define AMIQSOVIK_NOT_AN_INDEX 4   /* checks right, a rule of sound stores broken; gives the lowest such rule, 1..8 */
#define AMIQSOVIK_HELD_ALREADY 5   /* insert: the pair is held */
#define AMIQSOVIK_NOT_HELD 6       /* remove: the pair is not held */
#define AMIQSOVIK_NO_ROOM 7        /* insert: the bucket's pages are full, and there is no free page and no new one */
#define AMIQSOVIK_OUTPUT_SHORT 8   /* lookup: output_length / 6 is below the number of matches; gives that number */
#define AMIQSOVIK_BUSY 11          /* squeeze: the bucket is the old or new one of a pending job. Request 2026-01 */
#define AMIQSOVIK_IN_USE 12        /* format, in_use: the store is sound and holds pairs. Request 2026-04 */
#define AMIQSOVIK_JOURNAL_LENGTH 13 /* the journal is not 8,192 bytes. Request 2026-05 */
#define AMIQSOVIK_PENDING 14       /* the journal's head is not wiped: recover first. Request 2026-05 */
#define AMIQSOVIK_RESULT_SHORT 255 /* the result is below 28 bytes or the plan below 5,632; gives 28 or 5,632 */

/* ---- The journal
 *
 * A change is an accepted insert or removal, or one step of work or squeeze. It alters k blocks of the store, 1 to 8.
 * It is worked out first and then made as 2k + 3 stores of whole blocks: images of those blocks, as they will stand, go
 * to blocks 1 to k of the journal, then the head, which names them, to its block 0, then the end, a copy of the head,
 * to its block 15, then the k blocks to the store, and last a wiped head to block 0. Power may fail after any of them,
 * or in one, whose block then holds anything with a wrong check. After amiqsovik_recover the store is the one before
 * the change or the one after it, and the one after it if the end was written.
 *
 * This promise starts at a format made with the journal's head wiped, for one journal to one store and one store to one
 * journal, with nobody else writing to either. It ends where a format is cut or made with the head not wiped (formats
 * are not journalled, and take no journal), or where amiqsovik_wipe meets such a head.
 *
 * So a host wipes a new journal's head, and then formats the store. At each start it recovers, cut or not, and verifies
 * the store. Until then amiqsovik_look shows blocks as they will stand, and lookup, in_use, standing and gauge answer
 * for the store's bytes as they lie, perhaps DAMAGED. Where the arrays are all there is, the changes are made by insert,
 * remove, work and squeeze. Where they are copies of files, each block store must be on the medium before the next one:
 * see the changes in two halves. */

/* ---- The calls */

/* Tests a store. DONE (it is sound), LENGTH, DAMAGED or NOT_AN_INDEX. */
AMIQSOVIK_MUST_USE uint64_t amiqsovik_verify(const uint8_t *store, size_t store_length);

/* Makes a store new, unless it is in use: two buckets, no pairs, whatever its bytes were. `fill`, 1..40, is how many
 * pairs a bucket is to hold on average: with more, a split is wanted. DONE, LENGTH, NUMBER or IN_USE.
 *
 * `overwrite` is 0 or 1, else NUMBER. With 0, a store that is sound (under its own number, not the one given here) and
 * holds pairs is IN_USE and stays as it is. With 1 it is made new, and its pairs are lost. This protects no store that
 * is not sound: with 0 too, a damaged one full of readings is formatted without a word, and so is one that is lent with
 * another length than its own. Where readings may be worth something, verify first.
 *
 * `store_number` is any value: give each store another one. It stands in block 0, and the check of every block covers
 * it, the block's own number and the block's bytes. So, after block 0, a block that was right at the same place of a
 * store with another number is DAMAGED, and so is one that was right at another place of this store. One from another
 * place of a store with another number passes for at most one value of that number. The number in block 0 is the one
 * that counts: where a right block 0 comes from a store with another number, it passes, and block 1 is DAMAGED. Stores
 * with the same number are not told apart, nor is an older block at its own place. */
AMIQSOVIK_MUST_USE uint64_t amiqsovik_format(uint8_t *store, size_t store_length, uint32_t fill,
                                             uint32_t store_number, uint32_t overwrite);

/* Says what a format of this store, with a good fill and without overwriting, would answer: DONE, LENGTH or IN_USE.
 * DONE does not mean that there is nothing to lose: a store that is not sound is not IN_USE, whatever it holds.
 * amiqsovik_standing tells such a store from one with no pairs. A store is sound with its own N alone: who makes a
 * store anew with another N asks with the old length first. */
AMIQSOVIK_MUST_USE uint64_t amiqsovik_in_use(const uint8_t *store, size_t store_length);

/* Puts a pair in. `offset` is 1..65535 and `block` is not 4294967295, else NUMBER. DONE, LENGTH, JOURNAL_LENGTH,
 * NUMBER, PENDING, DAMAGED, NOT_AN_INDEX, HELD_ALREADY or NO_ROOM. */
AMIQSOVIK_MUST_USE uint64_t amiqsovik_insert(uint8_t *AMIQSOVIK_RESTRICT store, size_t store_length,
                                             uint8_t *AMIQSOVIK_RESTRICT journal, size_t journal_length,
                                             uint32_t hash, uint32_t block, uint32_t offset);

/* Takes a pair out. The numbers are tested as insert tests them. DONE, LENGTH, JOURNAL_LENGTH, NUMBER, PENDING,
 * DAMAGED, NOT_AN_INDEX or NOT_HELD. */
AMIQSOVIK_MUST_USE uint64_t amiqsovik_remove(uint8_t *AMIQSOVIK_RESTRICT store, size_t store_length,
                                             uint8_t *AMIQSOVIK_RESTRICT journal, size_t journal_length,
                                             uint32_t hash, uint32_t block, uint32_t offset);

/* Lists the places of the pairs held under a hash code, ascending by block, then offset: six bytes each, the block
 * and then the offset, little-endian (amiqsovik_match_block and amiqsovik_match_offset read them). Later output
 * bytes stay. DONE, which gives the number of matches, LENGTH, DAMAGED, NOT_AN_INDEX or OUTPUT_SHORT.
 *
 * A store that these calls made has at most 40 * (N - 3) matches of one hash code: 40,840 in 1,024 blocks, for which
 * an output of 245,040 bytes is long enough. (A sound store that no calls make may have 40 * (N - 2).) */
AMIQSOVIK_MUST_USE uint64_t amiqsovik_lookup(const uint8_t *AMIQSOVIK_RESTRICT store, size_t store_length,
                                             uint32_t hash, uint8_t *AMIQSOVIK_RESTRICT output,
                                             size_t output_length);

/* Does steps of splits, at most `budget`, 0..65535, else NUMBER. After each step the store is sound and every lookup
 * finds what it found before. DONE, with the number of steps done and why they stopped, LENGTH, JOURNAL_LENGTH, NUMBER,
 * PENDING, DAMAGED or NOT_AN_INDEX. A stop with no room is no refusal: the steps done before it stay.
 *
 * A split that finds m pairs to move, as standing's phase shows it from its begin to its end, is over within 2m + 3 of
 * its own steps, the begin included, whatever is inserted, removed, looked up and squeezed in between. A removal while
 * copying may save one or two of them; without removals it takes them all. A step that finds no room is not made, and
 * not counted. A begin may need new blocks, for its bucket and others to come. A copying step needs, while there is a
 * pair to copy, room on a page of the new bucket's chain, a free page or a new one, and is made once there is: removals
 * may make room, and a squeeze of another bucket may free a page. The end of the copying and the clearing need none.
 * Request 2026-12. */
AMIQSOVIK_MUST_USE uint64_t amiqsovik_work(uint8_t *AMIQSOVIK_RESTRICT store, size_t store_length,
                                           uint8_t *AMIQSOVIK_RESTRICT journal, size_t journal_length,
                                           uint32_t budget);

#define AMIQSOVIK_STOP_SPENT 0   /* the budget is spent */
#define AMIQSOVIK_STOP_NO_ROOM 7 /* the next step finds no room; it changed nothing. Never of clearing or a squeeze */
#define AMIQSOVIK_STOP_IDLE 9    /* work: there is no job, and no split is wanted; squeeze: no earlier page has room */

/* Gathers the pairs of a bucket on the first pages of its chain, which removals may have left long and thin: does
 * steps, at most `budget`, 0..65535, else NUMBER. A step moves the last entry of the chain's last page to the first
 * earlier page with room. A page that it leaves empty is freed, and later calls take it again. After each step the
 * store is sound and every lookup finds what it found before. DONE, with the number of steps done and why they stopped,
 * LENGTH, JOURNAL_LENGTH, NUMBER, PENDING, DAMAGED, NOT_AN_INDEX, NUMBER (where `bucket` is not below standing's number
 * of buckets) or BUSY.
 *
 * Stopped with IDLE, a chain of n entries has n / 40 pages, rounded up, or one if n is 0. That takes at most 40 steps
 * for each overflow page of the chain, and one more of the budget to say IDLE. Both buckets of a pending job are BUSY,
 * while copying and while clearing: amiqsovik_work ends the job. Steps of a squeeze are none of a split's. */
AMIQSOVIK_MUST_USE uint64_t amiqsovik_squeeze(uint8_t *AMIQSOVIK_RESTRICT store, size_t store_length,
                                              uint8_t *AMIQSOVIK_RESTRICT journal, size_t journal_length,
                                              uint32_t bucket, uint32_t budget);

/* Writes 28 bytes to `result`, little-endian (amiqsovik_stands reads them): count of held pairs, buckets, phase, old
 * bucket, new bucket, 32 bits each, and then the slack, fill * buckets - count, in 64 bits, two's complement. A slack
 * below zero means that a split is wanted. Later bytes of `result` stay. DONE, RESULT_SHORT, which is tested first,
 * LENGTH, DAMAGED or NOT_AN_INDEX. */
AMIQSOVIK_MUST_USE uint64_t amiqsovik_standing(const uint8_t *AMIQSOVIK_RESTRICT store, size_t store_length,
                                               uint8_t *AMIQSOVIK_RESTRICT result, size_t result_length);

#define AMIQSOVIK_PHASE_NONE 0 /* no job; both bucket numbers are 0 */
#define AMIQSOVIK_PHASE_COPYING 1
#define AMIQSOVIK_PHASE_CLEARING 2

/* Shows how full the index is, in two numbers (amiqsovik_read.h has the struct): 40 pairs in two pages are exactly 0.5
 * of their room, an empty store is 0 twice. `gauge` points to a struct, never NULL. DONE, LENGTH, DAMAGED or
 * NOT_AN_INDEX; unless it is DONE both numbers are 0, whatever they were, so that a panel shows no old ones. */
struct amiqsovik_gauge_values;
AMIQSOVIK_MUST_USE uint64_t amiqsovik_gauge(const uint8_t *AMIQSOVIK_RESTRICT store, size_t store_length,
                                            struct amiqsovik_gauge_values *AMIQSOVIK_RESTRICT gauge);

/* ---- The calls for the journal */

/* Wipes the head of a new journal, whatever its bytes are. A head that is not wiped may be a change that was cut, and
 * only recover finishes it. DONE or JOURNAL_LENGTH. */
AMIQSOVIK_MUST_USE uint64_t amiqsovik_wipe(uint8_t *journal, size_t journal_length);

/* Says whether a journal's head is wiped. DONE (it is), JOURNAL_LENGTH or PENDING. */
AMIQSOVIK_MUST_USE uint64_t amiqsovik_wiped(const uint8_t *journal, size_t journal_length);

/* Mends a store after a cut: copies the images to the store if the whole of them is in the journal, with head and end,
 * and leaves the store alone otherwise; then wipes the head. A cut inside it is mended by recovering again, and once it
 * is through, recovering again changes nothing. It does not judge the store. DONE, LENGTH or JOURNAL_LENGTH. */
AMIQSOVIK_MUST_USE uint64_t amiqsovik_recover(uint8_t *AMIQSOVIK_RESTRICT store, size_t store_length,
                                              uint8_t *AMIQSOVIK_RESTRICT journal, size_t journal_length);

/* Says where block `block` of the store is to be read as it will stand after recover. DONE, with the part (0 the store,
 * 1 the journal), and gives the block there; LENGTH, JOURNAL_LENGTH or NUMBER, where `block` is not below N. */
AMIQSOVIK_MUST_USE uint64_t amiqsovik_look(const uint8_t *store, size_t store_length, const uint8_t *journal,
                                           size_t journal_length, uint32_t block);

#define AMIQSOVIK_PART_STORE 0
#define AMIQSOVIK_PART_JOURNAL 1

/* ---- A change in two halves, for a host that keeps store and journal in files
 *
 * First plan: the change, for work and squeeze one step, is worked out to `plan`, of at least 5,632 bytes, else
 * RESULT_SHORT, tested first; store and journal stay. The answers are those of insert, remove, and work and squeeze
 * with budget 1. DONE gives the number of block stores, 2k + 3; 0, with a stop, where work or squeeze finds no step.
 * Then do the stores, from 0 on, with nothing else done to store or journal: all of them, in order, are the change.
 *
 *     word = amiqsovik_plan_insert(store, length, journal, 8192, hash, block, offset, plan, sizeof plan);
 *     for (n = 0; n < amiqsovik_gives(word); n++) { (once word is known to be DONE)
 *         did = amiqsovik_do_store(store, length, journal, 8192, plan, sizeof plan, n);
 *         pwrite the 512 bytes of block amiqsovik_gives(did) to the file of amiqsovik_part(did), then fdatasync it
 *     }
 *
 * At a start fdatasync both files before they are read: what a killed process wrote may not be on the disk yet. Then
 * recover in memory, write each block of the store that differs and fdatasync it, ascending, and only then the head. */
AMIQSOVIK_MUST_USE uint64_t amiqsovik_plan_insert(const uint8_t *AMIQSOVIK_RESTRICT store, size_t store_length,
                                                  const uint8_t *AMIQSOVIK_RESTRICT journal, size_t journal_length,
                                                  uint32_t hash, uint32_t block, uint32_t offset,
                                                  uint8_t *AMIQSOVIK_RESTRICT plan, size_t plan_length);
AMIQSOVIK_MUST_USE uint64_t amiqsovik_plan_remove(const uint8_t *AMIQSOVIK_RESTRICT store, size_t store_length,
                                                  const uint8_t *AMIQSOVIK_RESTRICT journal, size_t journal_length,
                                                  uint32_t hash, uint32_t block, uint32_t offset,
                                                  uint8_t *AMIQSOVIK_RESTRICT plan, size_t plan_length);
AMIQSOVIK_MUST_USE uint64_t amiqsovik_plan_work(const uint8_t *AMIQSOVIK_RESTRICT store, size_t store_length,
                                                const uint8_t *AMIQSOVIK_RESTRICT journal, size_t journal_length,
                                                uint8_t *AMIQSOVIK_RESTRICT plan, size_t plan_length);
AMIQSOVIK_MUST_USE uint64_t amiqsovik_plan_squeeze(const uint8_t *AMIQSOVIK_RESTRICT store, size_t store_length,
                                                   const uint8_t *AMIQSOVIK_RESTRICT journal, size_t journal_length,
                                                   uint32_t bucket,
                                                   uint8_t *AMIQSOVIK_RESTRICT plan, size_t plan_length);

/* Does block store `n` of a plan, and nothing else. DONE, with the part and the block written, as in look;
 * RESULT_SHORT, LENGTH, JOURNAL_LENGTH or NUMBER: the plan has no store `n`, or the store no such block. */
AMIQSOVIK_MUST_USE uint64_t amiqsovik_do_store(uint8_t *AMIQSOVIK_RESTRICT store, size_t store_length,
                                               uint8_t *AMIQSOVIK_RESTRICT journal, size_t journal_length,
                                               const uint8_t *AMIQSOVIK_RESTRICT plan, size_t plan_length, uint32_t n);

#undef AMIQSOVIK_MUST_USE
#undef AMIQSOVIK_RESTRICT

#ifdef __cplusplus
}
#endif

#include "amiqsovik_read.h"

#endif
