/* Readers of what the calls of amiqsovik.h answer and write. That header includes this one. */
#ifndef AMIQSOVIK_READ_H
#define AMIQSOVIK_READ_H

#include "amiqsovik.h"

#ifdef __cplusplus
extern "C" {
#endif

/* The name of an answer by its number: as in document 01's table (9 is a stop of work and squeeze, 10 is for a
 * script's lines alone), "busy" for 11, "in use" for 12, "journal length" for 13, "pending" for 14,
 * "result short" for 255, and "unknown" for any other. */
static inline const char *amiqsovik_name(uint32_t number)
{
    switch (number) {
    case AMIQSOVIK_DONE: return "done";
    case AMIQSOVIK_LENGTH: return "length";
    case AMIQSOVIK_NUMBER: return "number";
    case AMIQSOVIK_DAMAGED: return "damaged";
    case AMIQSOVIK_NOT_AN_INDEX: return "not an index";
    case AMIQSOVIK_HELD_ALREADY: return "held already";
    case AMIQSOVIK_NOT_HELD: return "not held";
    case AMIQSOVIK_NO_ROOM: return "no room";
    case AMIQSOVIK_OUTPUT_SHORT: return "output short";
    case AMIQSOVIK_STOP_IDLE: return "idle";
    case 10: return "unreadable";
    case AMIQSOVIK_BUSY: return "busy";
    case AMIQSOVIK_IN_USE: return "in use";
    case AMIQSOVIK_JOURNAL_LENGTH: return "journal length";
    case AMIQSOVIK_PENDING: return "pending";
    case AMIQSOVIK_RESULT_SHORT: return "result short";
    default: return "unknown";
    }
}

static inline uint32_t amiqsovik_u32(const uint8_t *p)
{
    return (uint32_t)p[0] | (uint32_t)p[1] << 8 | (uint32_t)p[2] << 16 | (uint32_t)p[3] << 24;
}

/* The match `i` of a lookup that gave more than `i`. */
static inline uint32_t amiqsovik_match_block(const uint8_t *output, size_t i)
{
    return amiqsovik_u32(output + AMIQSOVIK_MATCH_BYTES * i);
}

static inline uint16_t amiqsovik_match_offset(const uint8_t *output, size_t i)
{
    const uint8_t *p = output + AMIQSOVIK_MATCH_BYTES * i + 4;
    return (uint16_t)(p[0] | p[1] << 8);
}

struct amiqsovik_standing_values {
    uint32_t count;
    uint32_t buckets;
    uint32_t phase;
    uint32_t old_bucket;
    uint32_t new_bucket;
    int64_t slack;
};

/* The 28 bytes that amiqsovik_standing wrote. */
static inline struct amiqsovik_standing_values amiqsovik_stands(const uint8_t *result)
{
    uint64_t bits = amiqsovik_u32(result + 20) | (uint64_t)amiqsovik_u32(result + 24) << 32;
    struct amiqsovik_standing_values s;
    s.count = amiqsovik_u32(result);
    s.buckets = amiqsovik_u32(result + 4);
    s.phase = amiqsovik_u32(result + 8);
    s.old_bucket = amiqsovik_u32(result + 12);
    s.new_bucket = amiqsovik_u32(result + 16);
    s.slack = bits >> 63 ? -(int64_t)~bits - 1 : (int64_t)bits;
    return s;
}

/* What amiqsovik_gauge writes, request 2026-07: two doubles, binary64, and nothing else. Each is the quotient of two
 * whole numbers, rounded once. While a split copies, held pairs alone count, and not their copies. The pages that stand
 * in chains are those of the buckets, empty ones too, and their overflow pages. */
struct amiqsovik_gauge_values {
    double per_bucket; /* held pairs divided by buckets; 0 to 20,440 */
    double per_page;   /* held pairs divided by 40 times the pages that stand in chains, which is their room; 0 to 1 */
};

#ifdef __cplusplus
}
#endif

#endif
