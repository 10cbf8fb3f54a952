/* What the checks of 128 blocks cost in C, one block after the other: CRC-32C of 516 bytes each (the store's number,
 * the block's and its bytes 0..507), by the table of 256 numbers a byte at a time, by the same table with four bytes
 * put into the state at once, and by the processor's own instruction, eight bytes at a time. The median of 101 rounds,
 * in microseconds. It ends with 1 where two disagree.
 *
 *     gcc -O3 -msse4.2 -o target/limits tools/limits.c && target/limits
 */
#include <nmmintrin.h>
#include <stdint.h>
#include <stdio.h>
#include <stdlib.h>
#include <string.h>
#include <time.h>

enum { BLOCKS = 128, BLOCK = 512, COVERED = 508, ROUNDS = 101, CALLS = 20 };

static uint32_t table[256];
static uint8_t store[BLOCKS * BLOCK];

static uint32_t put_byte(uint32_t crc, uint8_t byte)
{
    return crc >> 8 ^ table[(uint8_t)crc ^ byte];
}

static uint32_t put_four(uint32_t crc, uint32_t four)
{
    crc ^= four;
    for (int i = 0; i < 4; i++)
        crc = crc >> 8 ^ table[(uint8_t)crc];
    return crc;
}

static uint32_t by_table(uint64_t numbers, const uint8_t *bytes)
{
    uint32_t crc = UINT32_MAX;
    for (int i = 0; i < 8; i++)
        crc = put_byte(crc, (uint8_t)(numbers >> 8 * i));
    for (int i = 0; i < COVERED; i++)
        crc = put_byte(crc, bytes[i]);
    return ~crc;
}

static uint32_t by_fours(uint64_t numbers, const uint8_t *bytes)
{
    uint32_t crc = put_four(put_four(UINT32_MAX, (uint32_t)numbers), (uint32_t)(numbers >> 32));
    uint32_t four;
    for (int i = 0; i < COVERED; i += 4) {
        memcpy(&four, bytes + i, 4);
        crc = put_four(crc, four);
    }
    return ~crc;
}

static uint32_t by_instruction(uint64_t numbers, const uint8_t *bytes)
{
    uint64_t crc = _mm_crc32_u64(UINT32_MAX, numbers);
    uint64_t eight;
    uint32_t four;
    for (int i = 0; i + 8 <= COVERED; i += 8) {
        memcpy(&eight, bytes + i, 8);
        crc = _mm_crc32_u64(crc, eight);
    }
    memcpy(&four, bytes + COVERED - 4, 4);
    return ~_mm_crc32_u32((uint32_t)crc, four);
}

/* All checks of the store, folded into one number so that none is left out. The store's number is 7. */
static uint32_t all(uint32_t (*check)(uint64_t, const uint8_t *))
{
    uint32_t folded = 0;
    for (int k = 0; k < BLOCKS; k++)
        folded = folded * 31 + check(7 | (uint64_t)k << 32, store + k * BLOCK);
    return folded;
}

static int ascending(const void *a, const void *b)
{
    double x = *(const double *)a, y = *(const double *)b;
    return (x > y) - (x < y);
}

static double microseconds(uint32_t (*check)(uint64_t, const uint8_t *))
{
    static volatile uint32_t sink;
    double rounds[ROUNDS];
    for (int r = 0; r < ROUNDS; r++) {
        struct timespec from, to;
        clock_gettime(CLOCK_MONOTONIC, &from);
        for (int i = 0; i < CALLS; i++)
            sink = all(check);
        clock_gettime(CLOCK_MONOTONIC, &to);
        rounds[r] = ((to.tv_sec - from.tv_sec) * 1e9 + (to.tv_nsec - from.tv_nsec)) / 1e3 / CALLS;
    }
    (void)sink;
    qsort(rounds, ROUNDS, sizeof *rounds, ascending);
    return rounds[ROUNDS / 2];
}

int main(void)
{
    for (uint32_t byte = 0; byte < 256; byte++) {
        table[byte] = byte;
        for (int bit = 0; bit < 8; bit++)
            table[byte] = table[byte] >> 1 ^ (table[byte] & 1 ? 0x82F63B78 : 0);
    }
    for (size_t i = 0; i < sizeof store; i++)
        store[i] = (uint8_t)(i * 2654435761u >> 13);
    if (all(by_table) != all(by_fours) || all(by_table) != all(by_instruction)) {
        fprintf(stderr, "limits: two ways disagree\n");
        return 1;
    }
    printf("table, a byte at a time             %7.1f us\n", microseconds(by_table));
    printf("table, four bytes put in at once    %7.1f us\n", microseconds(by_fours));
    printf("instruction, eight bytes at a time  %7.1f us\n", microseconds(by_instruction));
    return 0;
}
