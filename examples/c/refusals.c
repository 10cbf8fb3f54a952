/* Tests what the header says of refusals, of sizes, of squeezes, of stores in use, of store numbers, of standing's
 * result, of names and of the version; journal.c tests what it says of the journal. It is C and C++; `try` builds and
 * runs it. It exits with 0 if all of it holds. */
#include "tests.h"

enum { BLOCKS = 5, BYTES = BLOCKS * AMIQSOVIK_BLOCK_BYTES, ROOM = 64, MARK = 0x5A };

static void names(void)
{
    static const char *const table[] = {"done",         "length",   "number",  "damaged",        "not an index",
                                        "held already", "not held", "no room", "output short",   "idle",
                                        "unreadable",   "busy",     "in use",  "journal length", "pending"};
    uint32_t number;

    for (number = 0; number < 300; number++) {
        const char *name = number < 15 ? table[number] : number == 255 ? "result short" : "unknown";
        same(name, strcmp(amiqsovik_name(number), name) == 0, 1);
    }
    same("the name of 4294967295", strcmp(amiqsovik_name(UINT32_MAX), "unknown") == 0, 1);
}

static void version(void)
{
    char text[32];

    snprintf(text, sizeof text, "%d.%d.%d", AMIQSOVIK_VERSION / 10000, AMIQSOVIK_VERSION / 100 % 100,
             AMIQSOVIK_VERSION % 100);
    same("the version's text", strcmp(text, AMIQSOVIK_VERSION_TEXT) == 0, 1);
    same("the version's first number", AMIQSOVIK_VERSION / 10000, AMIQSOVIK_VERSION_MAJOR);
}

/* Three pairs at fill 1: the slack is -1. */
static void make(uint8_t *store, uint32_t number)
{
    uint32_t hash;

    memset(store, 0, BYTES);
    same("format", amiqsovik_format(store, BYTES, 1, number, 0), word(AMIQSOVIK_DONE, 0));
    for (hash = 0; hash < 3; hash++)
        same("insert", insert(store, BYTES, hash, 7, 1), word(AMIQSOVIK_DONE, 0));
}

/* What the bytes of a standing say of the store that `make` makes. */
static void standing_values(const uint8_t *result)
{
    struct amiqsovik_standing_values now = amiqsovik_stands(result);

    same("count", now.count, 3);
    same("buckets", now.buckets, 2);
    same("phase", now.phase, AMIQSOVIK_PHASE_NONE);
    same("buckets of a job", now.old_bucket | now.new_bucket, 0);
    same("slack", (uint64_t)now.slack, UINT64_MAX);
}

/* Standing with results of several lengths: what it answers where the result is long enough, and what it leaves. */
static void standing(const char *what, const uint8_t *store, size_t length, uint64_t answer)
{
    static const size_t lengths[] = {0, 1, 27, 28, 30, ROOM};
    uint8_t result[ROOM], blank[ROOM];
    size_t i, written;

    memset(blank, MARK, ROOM);
    for (i = 0; i < sizeof lengths / sizeof lengths[0]; i++) {
        int is_short = lengths[i] < AMIQSOVIK_RESULT_BYTES;

        memset(result, MARK, ROOM);
        same(what, amiqsovik_standing(store, length, result, lengths[i]),
             is_short ? word(AMIQSOVIK_RESULT_SHORT, 28) : answer);
        written = !is_short && answer == AMIQSOVIK_DONE ? 28 : 0;
        if (written > 0)
            standing_values(result);
        same(what, memcmp(result + written, blank, ROOM - written) == 0, 1);
    }
    same(what, amiqsovik_standing(store, length, NULL, 0), word(AMIQSOVIK_RESULT_SHORT, 28));
}

/* Standing of a sound store and of stores that it refuses. */
static void standings(const uint8_t *sound)
{
    uint8_t store[BYTES];

    same("255", AMIQSOVIK_RESULT_SHORT, 255);
    standing("a sound store", sound, BYTES, word(AMIQSOVIK_DONE, 0));
    standing("no store", NULL, 0, word(AMIQSOVIK_LENGTH, 0));
    standing("seven bytes", sound, 7, word(AMIQSOVIK_LENGTH, 0));
    memcpy(store, sound, BYTES);
    store[2 * AMIQSOVIK_BLOCK_BYTES + 9] ^= 1;
    standing("block 2 damaged", store, BYTES, word(AMIQSOVIK_DAMAGED, 2));
    /* All checks are right, but the meta block says that there are five blocks. */
    standing("four of five blocks", sound, BYTES - AMIQSOVIK_BLOCK_BYTES, word(AMIQSOVIK_NOT_AN_INDEX, 1));
}

/* Each other refusal, with the store and the output as they were. */
static void refusals(const uint8_t *sound)
{
    uint8_t store[BYTES], output[ROOM], blank[ROOM];

    memcpy(store, sound, BYTES);
    memset(output, MARK, ROOM);
    memset(blank, MARK, ROOM);
    same("verify", amiqsovik_verify(store, 7), word(AMIQSOVIK_LENGTH, 0));
    same("format", amiqsovik_format(store, BYTES, 41, 1, 1), word(AMIQSOVIK_NUMBER, 0));
    same("insert", insert(store, BYTES, 0, 7, 65536), word(AMIQSOVIK_NUMBER, 0));
    same("insert", insert(store, BYTES, 0, 7, 1), word(AMIQSOVIK_HELD_ALREADY, 0));
    same("remove", remove_pair(store, BYTES, 0, 7, 2), word(AMIQSOVIK_NOT_HELD, 0));
    same("work", work(store, BYTES, 65536), word(AMIQSOVIK_NUMBER, 0));
    same("lookup", amiqsovik_lookup(store, BYTES, 0, output, 5), word(AMIQSOVIK_OUTPUT_SHORT, 1));
    same("lookup", amiqsovik_lookup(store, BYTES, 0, NULL, 0), word(AMIQSOVIK_OUTPUT_SHORT, 1));
    same("the output", memcmp(output, blank, ROOM) == 0, 1);
    same("the store", memcmp(store, sound, BYTES) == 0, 1);
}

/* The fewest and the most blocks of a store, and one fewer and one more. */
static void sizes(void)
{
    static uint8_t store[(AMIQSOVIK_MAX_BLOCKS + 1) * AMIQSOVIK_BLOCK_BYTES];
    static const size_t blocks[] = {AMIQSOVIK_MIN_BLOCKS, AMIQSOVIK_MAX_BLOCKS};
    size_t i, length;

    same("the most blocks", AMIQSOVIK_MAX_BLOCKS, 1024);
    for (i = 0; i < 2; i++) {
        length = blocks[i] * AMIQSOVIK_BLOCK_BYTES;
        same("a good size", amiqsovik_format(store, length, 1, 9, 1), word(AMIQSOVIK_DONE, 0));
        same("a good size", amiqsovik_verify(store, length), word(AMIQSOVIK_DONE, 0));
    }
    length = (AMIQSOVIK_MIN_BLOCKS - 1) * AMIQSOVIK_BLOCK_BYTES;
    same("too few blocks", amiqsovik_format(store, length, 1, 9, 1), word(AMIQSOVIK_LENGTH, 0));
    same("too many blocks", amiqsovik_format(store, sizeof store, 1, 9, 1), word(AMIQSOVIK_LENGTH, 0));
}

/* A store of four blocks has no room for a 41st pair of one code. */
static void no_room(void)
{
    uint8_t store[4 * AMIQSOVIK_BLOCK_BYTES] = {0}, before[sizeof store];
    uint32_t reading;

    same("format", amiqsovik_format(store, sizeof store, 40, 0, 0), word(AMIQSOVIK_DONE, 0));
    for (reading = 0; reading < 40; reading++)
        same("insert", insert(store, sizeof store, 2, reading, 1), word(AMIQSOVIK_DONE, 0));
    memcpy(before, store, sizeof store);
    same("insert", insert(store, sizeof store, 2, 40, 1), word(AMIQSOVIK_NO_ROOM, 0));
    same("the full store", memcmp(store, before, sizeof store) == 0, 1);
}

/* The word of a call that made steps. */
static uint64_t worked(uint64_t steps, uint64_t stop) { return stop << 8 | steps << 16; }

/* A chain of three pages, the second thinned out: the ten entries of the third go there. Then refusals, in order. */
static void squeezes(void)
{
    uint8_t store[8 * AMIQSOVIK_BLOCK_BYTES] = {0}, before[sizeof store];
    uint32_t reading;

    same("format", amiqsovik_format(store, sizeof store, 40, 7, 0), word(AMIQSOVIK_DONE, 0));
    for (reading = 0; reading < 90; reading++)
        same("insert", insert(store, sizeof store, 2, reading, 1), word(AMIQSOVIK_DONE, 0));
    for (reading = 50; reading < 80; reading++)
        same("remove", remove_pair(store, sizeof store, 2, reading, 1), word(AMIQSOVIK_DONE, 0));
    same("four steps", squeeze(store, sizeof store, 0, 4), worked(4, AMIQSOVIK_STOP_SPENT));
    same("the others", squeeze(store, sizeof store, 0, 65535), worked(6, AMIQSOVIK_STOP_IDLE));
    same("verify", amiqsovik_verify(store, sizeof store), word(AMIQSOVIK_DONE, 0));
    memcpy(before, store, sizeof store);
    same("no store", squeeze(NULL, 0, 2, 65536), word(AMIQSOVIK_LENGTH, 0));
    same("no bucket", squeeze(store, sizeof store, 2, 0), word(AMIQSOVIK_NUMBER, 0));
    same("the store", memcmp(store, before, sizeof store) == 0, 1);
    store[2 * AMIQSOVIK_BLOCK_BYTES + 9] ^= 1;
    same("a large budget", squeeze(store, sizeof store, 0, 65536), word(AMIQSOVIK_NUMBER, 0));
    same("damaged, no bucket", squeeze(store, sizeof store, 2, 65535), word(AMIQSOVIK_DAMAGED, 2));
}

/* Both buckets of a split of five steps are busy until it is over, and another one is not. */
static void busy(void)
{
    uint8_t store[8 * AMIQSOVIK_BLOCK_BYTES] = {0};
    uint32_t i;

    same("format", amiqsovik_format(store, sizeof store, 1, 7, 0), word(AMIQSOVIK_DONE, 0));
    for (i = 0; i < 3; i++)
        same("insert", insert(store, sizeof store, 2 * i, 7, 1), word(AMIQSOVIK_DONE, 0));
    for (i = 1; i <= 5; i++) {
        uint64_t wanted = i < 5 ? word(AMIQSOVIK_BUSY, 0) : worked(0, AMIQSOVIK_STOP_IDLE);

        same("work", work(store, sizeof store, 1), worked(1, AMIQSOVIK_STOP_SPENT));
        same("the old bucket", squeeze(store, sizeof store, 0, 9), wanted);
        same("the new bucket", squeeze(store, sizeof store, 2, 9), wanted);
        same("another bucket", squeeze(store, sizeof store, 1, 9), worked(0, AMIQSOVIK_STOP_IDLE));
    }
}

/* What in_use answers of a store, and format of copies of it, with a good fill and `overwrite` from 0 to 3. A format
 * that is refused leaves the store as it was. */
static void formats(const char *what, const uint8_t *store, size_t length, uint32_t answer)
{
    uint32_t overwrite;
    uint8_t copy[BYTES];

    same(what, amiqsovik_in_use(store, length), word(answer, 0));
    for (overwrite = 0; overwrite < 4; overwrite++) {
        uint32_t wanted = overwrite == 0 || answer == AMIQSOVIK_LENGTH ? answer
                          : overwrite == 1                            ? AMIQSOVIK_DONE
                                                                      : AMIQSOVIK_NUMBER;

        memcpy(copy, store, length);
        same(what, amiqsovik_format(copy, length, 1, 9, overwrite), word(wanted, 0));
        same(what, memcmp(copy, store, length) == 0, wanted != AMIQSOVIK_DONE);
    }
}

/* Stores in use, which take a format only with overwrite 1, and others, which take one with 0 too. */
static void in_use(const uint8_t *sound)
{
    uint8_t store[BYTES];
    uint32_t hash;

    same("12", AMIQSOVIK_IN_USE, 12);
    formats("a sound store with pairs", sound, BYTES, AMIQSOVIK_IN_USE);
    formats("seven bytes", sound, 7, AMIQSOVIK_LENGTH);
    same("no store", amiqsovik_in_use(NULL, 0), word(AMIQSOVIK_LENGTH, 0));
    /* The order is length, numbers, in use. */
    memcpy(store, sound, BYTES);
    same("all wrong", amiqsovik_format(store, BYTES - 1, 0, 9, 2), word(AMIQSOVIK_LENGTH, 0));
    same("fill and in use", amiqsovik_format(store, BYTES, 0, 9, 0), word(AMIQSOVIK_NUMBER, 0));
    same("overwrite and in use", amiqsovik_format(store, BYTES, 1, 9, UINT32_MAX), word(AMIQSOVIK_NUMBER, 0));
    same("the store", memcmp(store, sound, BYTES) == 0, 1);
    /* A store that is not sound is not in use, though its pairs are there. */
    store[2 * AMIQSOVIK_BLOCK_BYTES + 9] ^= 1;
    formats("block 2 damaged", store, BYTES, AMIQSOVIK_DONE);
    formats("four of five blocks", sound, BYTES - AMIQSOVIK_BLOCK_BYTES, AMIQSOVIK_DONE);
    memcpy(store, sound, BYTES);
    for (hash = 0; hash < 3; hash++) {
        formats("pairs left", store, BYTES, AMIQSOVIK_IN_USE);
        same("remove", remove_pair(store, BYTES, hash, 7, 1), word(AMIQSOVIK_DONE, 0));
    }
    formats("no pairs left", store, BYTES, AMIQSOVIK_DONE);
}

/* The store with a block of its own or of another store put in place of block `to` is damaged. */
static void misplaced(const char *what, const uint8_t *sound, const uint8_t *source, size_t from, size_t to,
                      uint32_t damaged)
{
    uint8_t store[BYTES];

    memcpy(store, sound, BYTES);
    memcpy(store + to * AMIQSOVIK_BLOCK_BYTES, source + from * AMIQSOVIK_BLOCK_BYTES, AMIQSOVIK_BLOCK_BYTES);
    same(what, amiqsovik_verify(store, BYTES), word(AMIQSOVIK_DAMAGED, damaged));
    same(what, insert(store, BYTES, 3, 7, 1), word(AMIQSOVIK_DAMAGED, damaged));
}

/* Blocks at the wrong place, and blocks of a store that differs in its number alone. */
static void wrong_blocks(const uint8_t *sound)
{
    uint8_t other[BYTES];
    uint32_t block;

    make(other, UINT32_MAX);
    same("number 4294967295", amiqsovik_verify(other, BYTES), word(AMIQSOVIK_DONE, 0));
    for (block = 1; block < BLOCKS; block++)
        misplaced("a block of another store", sound, other, block, block, block);
    /* The number in block 0 is the store's: with another store's block 0, it is the others that are wrong. */
    misplaced("block 0 of another store", sound, other, 0, 0, 1);
    misplaced("block 1 in place of 2", sound, sound, 1, 2, 2);
    misplaced("block 4 in place of 1", sound, sound, 4, 1, 1);
    misplaced("block 0 in place of 4", sound, sound, 0, 4, 4);
    misplaced("block 2 in place of 0", sound, sound, 2, 0, 0);
}

int main(void)
{
    uint8_t sound[BYTES];

    wipe();
    make(sound, 7);
    names();
    version();
    standings(sound);
    refusals(sound);
    sizes();
    no_room();
    squeezes();
    busy();
    in_use(sound);
    wrong_blocks(sound);
    return wrong;
}
