/*
 * Random, truncated and damaged inputs for the reader and the writer, any energies to be quantised and any borders that are named, in memory that is guarded on both sides of each range: a page that
 * can't be touched stands directly behind the range, or directly before it. What a call may not touch is compared after it.
 *
 * usage: damage CASES SEED
 */
#include "sbr_grid.h"

#include <inttypes.h>
#include <stdio.h>
#include <stdlib.h>
#include <string.h>
#include <sys/mman.h>
#include <unistd.h>

enum { MAX_BYTES = 24, MAX_VALUES = 12, MAX_NAMED = 9, BESIDE = 16, RANGES = 4, KINDS = 4, REFUSALS = 11, NUMBERS_SIZE = SBR_NUMBERS * 4 };

static const char *const KIND_NAMES[KINDS] = {"random bytes", "streams", "truncated streams", "damaged streams"};

static uint64_t state;

static uint64_t next(void)
{
    state += 0x9e3779b97f4a7c15u;
    uint64_t z = state;
    z = (z ^ (z >> 30)) * 0xbf58476d1ce4e5b9u;
    z = (z ^ (z >> 27)) * 0x94d049bb133111ebu;
    return z ^ (z >> 31);
}

static uint64_t below(uint64_t n) { return next() % n; }

static int one_in(uint64_t n) { return below(n) == 0; }

/* A page between two that can't be touched. */
struct guarded {
    uint8_t *page;
    size_t size;
};

static struct guarded guard(void)
{
    size_t size = (size_t)sysconf(_SC_PAGESIZE);
    uint8_t *all = mmap(NULL, 3 * size, PROT_READ | PROT_WRITE, MAP_PRIVATE | MAP_ANONYMOUS, -1, 0);
    if (all == MAP_FAILED || mprotect(all, size, PROT_NONE) != 0 || mprotect(all + 2 * size, size, PROT_NONE) != 0) {
        perror("guarded memory");
        exit(2);
    }
    return (struct guarded){all + size, size};
}

/* A range of a guarded page, at its end or at its start, each byte anything. A range of length 0 lies at the edge. */
static uint8_t *range(struct guarded g, size_t length, int at_end)
{
    uint8_t *from = at_end ? g.page + g.size - length : g.page;
    for (size_t i = 0; i < length; i++)
        from[i] = (uint8_t)next();
    return from;
}

static void fail(const char *what, uint64_t number)
{
    printf("damage: %s, in case %" PRIu64 "\n", what, number);
    exit(1);
}

/* What the reader gives, in guarded memory of the exact sizes. */
struct outputs {
    uint64_t *position;
    int32_t *border;
    uint32_t *attack, *begins_on_attack, *numbers;
    uint8_t *freq_res, *rel_0, *rel_1;
    uint32_t *t_e, *t_q;
    int32_t *l_a;
};

enum { OUTPUTS = 11 };

static struct guarded in_memory[RANGES], out_memory[OUTPUTS];

static struct outputs outputs(int at_end)
{
    return (struct outputs){
        (uint64_t *)(void *)range(out_memory[0], 8, at_end),  (int32_t *)(void *)range(out_memory[1], 4, at_end),
        (uint32_t *)(void *)range(out_memory[2], 4, at_end),  (uint32_t *)(void *)range(out_memory[3], 4, at_end),
        (uint32_t *)(void *)range(out_memory[4], NUMBERS_SIZE, at_end), range(out_memory[5], 5, at_end),
        range(out_memory[6], 4, at_end), range(out_memory[7], 4, at_end), (uint32_t *)(void *)range(out_memory[8], 24, at_end),
        (uint32_t *)(void *)range(out_memory[9], 12, at_end), (int32_t *)(void *)range(out_memory[10], 4, at_end),
    };
}

/* Every output in one piece, for comparison. */
static size_t gathered(struct outputs o, uint8_t *to)
{
    size_t n = 0;
    const struct {
        const void *from;
        size_t size;
    } parts[] = {{o.position, 8}, {o.border, 4}, {o.attack, 4}, {o.begins_on_attack, 4}, {o.numbers, NUMBERS_SIZE}, {o.freq_res, 5}, {o.rel_0, 4}, {o.rel_1, 4}, {o.t_e, 24}, {o.t_q, 12}, {o.l_a, 4}};
    for (size_t i = 0; i < sizeof parts / sizeof parts[0]; i++) {
        memcpy(to + n, parts[i].from, parts[i].size);
        n += parts[i].size;
    }
    return n;
}

/* A number that is small, at an edge, or anything. */
static uint64_t some_count(uint64_t most)
{
    if (one_in(16))
        return next();
    if (one_in(16))
        return UINT64_MAX - below(3);
    return below(most + 2);
}

/* A border byte, half of them 0. */
static uint8_t some_border(void)
{
    return one_in(2) ? 0 : one_in(16) ? (uint8_t)next() : (uint8_t)below(4);
}

/* A record, most of them with small numbers, is written; answers what the call answered. */
static uint32_t write_some(uint8_t *bytes, size_t length, uint64_t *position, int at_end)
{
    int short_ranges = one_in(8);
    size_t flags = short_ranges ? (size_t)below(7) : 5, rel_0 = short_ranges ? (size_t)below(6) : 4, rel_1 = short_ranges ? (size_t)below(6) : 4;
    uint8_t *freq_res = range(in_memory[1], flags, at_end), *first = range(in_memory[2], rel_0, at_end), *second = range(in_memory[3], rel_1, at_end);
    if (!one_in(8)) {
        for (size_t i = 0; i < flags; i++)
            freq_res[i] &= 1;
        for (size_t i = 0; i < rel_0; i++)
            first[i] &= 3;
        for (size_t i = 0; i < rel_1; i++)
            second[i] &= 3;
    }
    uint32_t class = one_in(16) ? (uint32_t)next() : (uint32_t)below(4);
    uint64_t n0 = some_count(3), n1 = some_count(3), n = some_count(5);
    if (!one_in(4)) {
        n0 = class == SBR_VARFIX || class == SBR_VARVAR ? below(4) : 0;
        n1 = class == SBR_FIXVAR || class == SBR_VARVAR ? below(4) : 0;
        n = class == SBR_FIXFIX ? 1u << below(3) : n0 + n1 + 1;
    }
    uint8_t b0 = some_border(), b1 = some_border();
    uint8_t pointer = one_in(16) ? (uint8_t)next() : (uint8_t)below(n < 6 ? n + 1 : 6);
    return sbr_write_grid(bytes, length, position, class, n, freq_res, flags, b0, b1, first, rel_0, n0, second, rel_1, n1, pointer);
}

static uint64_t written, filled, lists, quantised, unwritten[REFUSALS], unquantised[REFUSALS], named[REFUSALS], answers[REFUSALS], kinds[KINDS], ended_on_attack, began_on_attack;

/* The bytes of a page beside a range, on the side that is not guarded. */
static uint8_t *beside(uint8_t *bytes, size_t length, int at_end) { return at_end ? bytes - BESIDE : bytes + length; }

/* Bits were written from `start` to `end` of a range: the rest of the byte in which they end is clear, every other bit that is not theirs is kept. */
static void check_put(const uint8_t *bytes, const uint8_t *before, size_t length, uint64_t start, uint64_t end, uint64_t number)
{
    uint64_t last = (end - 1) / 8;
    for (uint64_t i = 0; i < 8 * length; i++) {
        int bit = bytes[i / 8] >> (7 - i % 8) & 1, old = before[i / 8] >> (7 - i % 8) & 1;
        if (i >= end && i / 8 == last && bit != 0)
            fail("a write left a bit set in the rest of its last byte", number);
        if ((i < start || i / 8 > last) && bit != old)
            fail("a write changed another bit", number);
    }
}

/* A write into a range of random length at any position; a refusal changes nothing, and no write anything beside the range. */
static void try_write(uint64_t number)
{
    int at_end = one_in(2);
    size_t length = (size_t)below(9);
    uint8_t *bytes = range(in_memory[0], length, at_end), before[8], outside[BESIDE];
    memcpy(before, bytes, length);
    for (size_t i = 0; i < BESIDE; i++)
        outside[i] = beside(bytes, length, at_end)[i] = (uint8_t)next();
    uint64_t *position = (uint64_t *)(void *)range(out_memory[0], 8, at_end);
    uint64_t start = one_in(8) ? next() : below(8 * length + 2);
    *position = start;
    uint32_t r = write_some(bytes, length, position, at_end);
    if (memcmp(beside(bytes, length, at_end), outside, BESIDE) != 0)
        fail("a write changed a byte beside its range", number);
    if (r != 0) {
        if (r > 9 || *position != start || memcmp(bytes, before, length) != 0)
            fail("a refused write changed something", number);
        unwritten[r]++;
        return;
    }
    if (*position <= start || *position > 8 * length)
        fail("a write ended outside its range", number);
    check_put(bytes, before, length, start, *position, number);
    written++;
    filled += *position % 8 == 0;
}

/* Energies of any bits, or from below 64 to past the highest value, are quantised into a range of about their number; a refusal changes nothing, and no
   call a byte past the values or beside the range, nor an energy. */
static void try_quantise(uint64_t number)
{
    int at_end = one_in(2);
    size_t count = (size_t)below(MAX_VALUES), size = count * sizeof(double), length = (size_t)below(4) + (count < 2 ? 0 : count - 2);
    uint64_t *energy = (uint64_t *)(void *)range(in_memory[1], size, at_end), kept[MAX_VALUES];
    for (size_t i = 0; i < count; i++)
        if (one_in(2))
            energy[i] = (1023 + below(80)) << 52 | next() >> 12;
    uint8_t *bytes = range(in_memory[0], length, at_end), before[MAX_VALUES + 2], outside[BESIDE];
    memcpy(kept, energy, size);
    memcpy(before, bytes, length);
    for (size_t i = 0; i < BESIDE; i++)
        outside[i] = beside(bytes, length, at_end)[i] = (uint8_t)next();
    uint32_t amp_res = one_in(8) ? (uint32_t)next() : (uint32_t)below(2);
    uint32_t wanted = amp_res > 1 ? SBR_REFUSED_RECORD : length < count ? SBR_REFUSED_ROOM : 0;
    uint32_t r = sbr_quantise_envelopes((const double *)(const void *)energy, count, amp_res, bytes, length);
    if (r != wanted)
        fail("quantising answered another number", number);
    if (memcmp(beside(bytes, length, at_end), outside, BESIDE) != 0 || memcmp(energy, kept, size) != 0)
        fail("quantising changed something beside its range", number);
    size_t values = r == 0 ? count : 0;
    if (memcmp(bytes + values, before + values, length - values) != 0)
        fail("quantising changed a byte that is no value", number);
    for (size_t i = 0; i < values; i++)
        if (bytes[i] > (amp_res == 1 ? SBR_MAX_COARSE : SBR_MAX_FINE))
            fail("a value is above the highest", number);
    if (r == 0)
        quantised++;
    else
        unquantised[r]++;
}

/* A border or a mark: mostly one that a frame may have. */
static int32_t some_number(int32_t from, uint32_t span) { return one_in(32) ? (int32_t)(uint32_t)next() : from + (int32_t)below(span); }

/* Borders of any number, most of them rising, are named: a refusal changes nothing, an answer is a record that is written and read back as it is, with what was named. */
static void try_named(uint64_t number)
{
    int at_end = one_in(2);
    size_t count = one_in(8) ? (size_t)below(MAX_NAMED) : 2 + (size_t)below(3), flags = one_in(16) ? (size_t)below(MAX_NAMED) : count - (count > 0);
    int32_t *borders = (int32_t *)(void *)range(in_memory[0], 4 * count, at_end), kept[MAX_NAMED];
    uint64_t slots = one_in(32) ? next() : 15 + below(2);
    for (size_t i = 0; i < count; i++)
        borders[i] = i == 0 ? some_number(-1, 5) : i + 1 == count ? some_number((int32_t)(slots & 31) - 1, 6) : some_number(kept[i - 1] + 1, 7), kept[i] = borders[i];
    uint8_t *resolutions = range(in_memory[1], flags, at_end), kept_flags[MAX_NAMED];
    int high = 0;
    for (size_t i = 0; i < flags; i++) {
        resolutions[i] &= one_in(64) ? 3 : 1;
        high |= resolutions[i] > 1;
        kept_flags[i] = resolutions[i];
    }
    int32_t mark = some_number(-2, (uint32_t)count + 3);
    uint8_t before[128], after[128];
    struct outputs o = outputs(at_end);
    size_t n = gathered(o, before);
    uint32_t r = sbr_grid_for_borders(slots, borders, count, resolutions, flags, mark, o.numbers, o.freq_res, o.rel_0, o.rel_1);
    gathered(o, after);
    if (memcmp(borders, kept, 4 * count) != 0 || memcmp(resolutions, kept_flags, flags) != 0)
        fail("naming borders changed what was handed in", number);
    uint32_t first = slots != 15 && slots != 16 ? SBR_REFUSED_SLOT_COUNT : high ? SBR_REFUSED_RECORD : 0;
    if (first != 0 ? r != first : r != 0 && r != SBR_REFUSED_NO_GRID)
        fail("naming borders answered another number", number);
    named[r]++;
    if (r != 0) {
        if (memcmp(before, after, n) != 0)
            fail("a refused naming changed something", number);
        return;
    }
    uint8_t bytes[4], res[SBR_MAX_ENVELOPES], rel_0[SBR_MAX_REL_BORD], rel_1[SBR_MAX_REL_BORD];
    uint64_t position = 0, at = 0;
    uint32_t attack = 0, begins, numbers[SBR_NUMBERS], t_e[SBR_MAX_BORDERS], t_q[SBR_MAX_NOISE_BORDERS];
    int32_t border = kept[0] + (int32_t)slots, l_a;
    if (sbr_write_grid(bytes, sizeof bytes, &position, o.numbers[0], o.numbers[1], o.freq_res, 5, (uint8_t)o.numbers[3], (uint8_t)o.numbers[4], o.rel_0, 4, o.numbers[5], o.rel_1, 4,
                       o.numbers[6], (uint8_t)o.numbers[7]) != 0 ||
        sbr_read_grid(bytes, sizeof bytes, slots, &at, &border, &attack, &begins, numbers, res, rel_0, rel_1, t_e, t_q, &l_a) != 0)
        fail("a record for named borders is not written or not read", number);
    if (memcmp(numbers, o.numbers, NUMBERS_SIZE) != 0 || memcmp(res, o.freq_res, 5) != 0 || memcmp(rel_0, o.rel_0, 4) != 0 || memcmp(rel_1, o.rel_1, 4) != 0)
        fail("the reader gives another record", number);
    if (l_a != mark || numbers[SBR_NUM_ENV] + 1 != count || memcmp(res, kept_flags, flags) != 0)
        fail("a record has another mark, count or resolution", number);
    for (size_t i = 0; i < count; i++)
        if ((int32_t)t_e[i] != kept[i])
            fail("a record has other borders", number);
}

/* Reads until a refusal, which must leave everything as it was; the flag that a frame leaves is handed in to the next reading. */
static void read_all(const uint8_t *bytes, size_t length, uint64_t start, int32_t border, uint64_t slots, uint64_t number, int at_end)
{
    uint8_t before[128], after[128], kept[MAX_BYTES];
    memcpy(kept, bytes, length);
    struct outputs o = outputs(at_end);
    *o.position = start;
    *o.border = border;
    /* any number but 0 is a set flag, also one whose low bits are 0 */
    if (one_in(2))
        *o.attack = one_in(2) ? 0 : 256u << below(24);
    for (;;) {
        size_t n = gathered(o, before);
        uint64_t from = *o.position;
        uint32_t flag = *o.attack;
        uint32_t r = sbr_read_grid(bytes, length, slots, o.position, o.border, o.attack, o.begins_on_attack, o.numbers, o.freq_res, o.rel_0, o.rel_1, o.t_e, o.t_q, o.l_a);
        if (r > 9)
            fail("a reading answered no number of a refusal", number);
        answers[r]++;
        gathered(o, after);
        if (memcmp(kept, bytes, length) != 0)
            fail("a reading changed its bytes", number);
        if (r != 0) {
            if (memcmp(before, after, n) != 0)
                fail("a refused reading changed something", number);
            return;
        }
        if (*o.position <= from || *o.position > 8 * (uint64_t)length)
            fail("a reading ended outside its bytes", number);
        if (*o.begins_on_attack != (flag != 0))
            fail("a frame does not begin as the flag said", number);
        if (*o.attack != (*o.l_a == (int32_t)o.numbers[SBR_NUM_ENV]))
            fail("a flag is not that of the frame", number);
        ended_on_attack += *o.attack;
        began_on_attack += *o.begins_on_attack;
    }
}

static void try_read(uint64_t number)
{
    int at_end = one_in(2);
    size_t length = (size_t)below(MAX_BYTES + 1);
    uint8_t *bytes = range(in_memory[0], length, at_end);
    uint64_t slots = one_in(32) ? next() : 15 + below(2);
    uint64_t start = one_in(32) ? next() : below(20);
    uint64_t kind = below(KINDS);
    if (kind > 0) {
        uint64_t *position = (uint64_t *)(void *)range(out_memory[0], 8, at_end);
        *position = start;
        uint8_t before[MAX_BYTES];
        memcpy(before, bytes, length);
        for (int i = 0; i < 8; i++)
            write_some(bytes, length, position, at_end);
        if (*position > start) {
            check_put(bytes, before, length, start, *position, number);
            lists++;
        } else if (memcmp(bytes, before, length) != 0)
            fail("refused writes changed something", number);
    }
    if (kind == 2 && length > 0) {
        size_t shorter = (size_t)below(length);
        if (at_end)
            memmove(bytes + (length - shorter), bytes, shorter);
        bytes += at_end ? length - shorter : 0;
        length = shorter;
    }
    if (kind == 3 && length > 0)
        for (uint64_t flips = 1 + below(3); flips > 0; flips--)
            bytes[below(length)] ^= (uint8_t)(1u << below(8));
    kinds[kind]++;
    int32_t border = one_in(16) ? (int32_t)(uint32_t)next() : (int32_t)(slots & 31) + (int32_t)(one_in(2) ? 0 : below(4));
    read_all(bytes, length, start, border, slots, number, at_end);
}

static void print_counts(const char *what, const uint64_t counts[REFUSALS])
{
    printf("%s:", what);
    for (int i = 0; i < REFUSALS; i++)
        if (counts[i] != 0)
            printf(" %d: %" PRIu64, i, counts[i]);
    printf("\n");
}

int main(int argc, char **argv)
{
    if (argc != 3) {
        fprintf(stderr, "usage: damage CASES SEED\n");
        return 2;
    }
    uint64_t cases = strtoull(argv[1], NULL, 10);
    state = strtoull(argv[2], NULL, 10);
    for (int i = 0; i < RANGES; i++)
        in_memory[i] = guard();
    for (int i = 0; i < OUTPUTS; i++)
        out_memory[i] = guard();
    for (uint64_t i = 0; i < cases; i++) {
        try_write(i);
        try_read(i);
    }
    for (uint64_t i = 0; i < cases; i++)
        try_quantise(i);
    for (uint64_t i = 0; i < cases; i++)
        try_named(i);
    printf("damage: seed %s, %" PRIu64 " each of writes, inputs read to their first refusal, lists of energies quantised and lists of borders named, nothing outside a range touched\n", argv[2], cases);
    for (int i = 0; i < KINDS; i++)
        printf("  %s: %" PRIu64 "\n", KIND_NAMES[i], kinds[i]);
    printf("writes answered: %" PRIu64 ", of which %" PRIu64 " fill their last byte\n", written, filled);
    printf("lists of writes in a stream, at least one of them answered: %" PRIu64 "\n", lists);
    print_counts("writes refused, by number", unwritten);
    print_counts("readings by number (0: a frame)", answers);
    printf("lists quantised: %" PRIu64 "\n", quantised);
    print_counts("lists not quantised, by number", unquantised);
    print_counts("lists of borders by number (0: a record)", named);
    printf("frames that mark an attack at their very end: %" PRIu64 ", that begin on one: %" PRIu64 "\n", ended_on_attack, began_on_attack);
    return 0;
}
