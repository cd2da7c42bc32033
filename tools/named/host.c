/*
 * Answers cases of named borders, in the format of tools/named_cases.py, through the C calls: for each the record, or the refusal. The record is written, read
 * back and held against what was named; what a refused call may not touch is compared after it.
 */
#include "sbr_grid.h"

#include <inttypes.h>
#include <stdio.h>
#include <stdlib.h>
#include <string.h>

enum { MAX_COUNT = 16, UNTOUCHED = 0xEE };

static const char *const CLASSES[] = {"FixFix", "FixVar", "VarFix", "VarVar"};

static void fail(const char *what)
{
    printf("%s\n", what);
    fflush(stdout);
    exit(1);
}

static int fill(void *to, size_t size)
{
    return fread(to, 1, size, stdin) == size;
}

struct record {
    uint32_t numbers[SBR_NUMBERS];
    uint8_t freq_res[SBR_MAX_ENVELOPES], rel_0[SBR_MAX_REL_BORD], rel_1[SBR_MAX_REL_BORD];
};

static void print_lengths(const char *name, const uint8_t *rel, uint32_t count)
{
    printf(" %s", name);
    for (uint32_t i = 0; i < count; i++)
        printf(" %u", rel[i]);
}

static void print_record(const struct record *r)
{
    const uint32_t *n = r->numbers;
    printf("%s ", CLASSES[n[SBR_FRAME_CLASS]]);
    for (uint32_t i = 0; i < n[SBR_NUM_ENV]; i++)
        putchar(r->freq_res[i] ? 'H' : 'L');
    printf(" b0 %" PRIu32 " b1 %" PRIu32, n[SBR_VAR_BORD_0], n[SBR_VAR_BORD_1]);
    print_lengths("rel0", r->rel_0, n[SBR_NUM_REL_0]);
    print_lengths("rel1", r->rel_1, n[SBR_NUM_REL_1]);
    printf(" p %" PRIu32 " noise %" PRIu32 " amp %" PRIu32 "\n", n[SBR_POINTER], n[SBR_NUM_NOISE], n[SBR_AMP_RES_OVERRIDE]);
}

/* The record is written and read back as it is, with the borders, the resolutions and the mark that were named. */
static void check(uint64_t slots, const int32_t *borders, const uint8_t *flags, uint8_t count, int32_t mark, const struct record *r)
{
    const uint32_t *n = r->numbers;
    uint8_t bytes[4];
    uint64_t position = 0, at = 0;
    if (sbr_write_grid(bytes, sizeof bytes, &position, n[SBR_FRAME_CLASS], n[SBR_NUM_ENV], r->freq_res, SBR_MAX_ENVELOPES, (uint8_t)n[SBR_VAR_BORD_0],
                       (uint8_t)n[SBR_VAR_BORD_1], r->rel_0, SBR_MAX_REL_BORD, n[SBR_NUM_REL_0], r->rel_1, SBR_MAX_REL_BORD, n[SBR_NUM_REL_1],
                       (uint8_t)n[SBR_POINTER]) != 0)
        fail("the record is not writable");
    struct record back;
    memset(&back, UNTOUCHED, sizeof back);
    int32_t border = borders[0] + (int32_t)slots, l_a;
    uint32_t attack = 0, begins, t_e[SBR_MAX_BORDERS], t_q[SBR_MAX_NOISE_BORDERS];
    if (sbr_read_grid(bytes, sizeof bytes, slots, &at, &border, &attack, &begins, back.numbers, back.freq_res, back.rel_0, back.rel_1, t_e, t_q, &l_a) != 0)
        fail("its bits are not read");
    if (at != position || memcmp(&back, r, sizeof back) != 0)
        fail("the reader gives another record");
    if (l_a != mark || back.numbers[SBR_NUM_ENV] != count)
        fail("another mark or count");
    for (uint8_t i = 0; i <= count; i++)
        if (t_e[i] != (uint32_t)borders[i] || (i < count && back.freq_res[i] != flags[i]))
            fail("other borders or resolutions");
}

int main(void)
{
    uint8_t count;
    while (fill(&count, 1)) {
        int32_t borders[MAX_COUNT], mark;
        uint8_t num_flags, flags[MAX_COUNT];
        uint64_t slots;
        if (count > MAX_COUNT || !fill(borders, 4u * count) || !fill(&num_flags, 1) || num_flags > MAX_COUNT || !fill(flags, num_flags) || !fill(&mark, 4) ||
            !fill(&slots, 8))
            fail("a case is cut off");
        struct record r, before;
        memset(&before, UNTOUCHED, sizeof before);
        r = before;
        uint32_t number = sbr_grid_for_borders(slots, borders, count, flags, num_flags, mark, r.numbers, r.freq_res, r.rel_0, r.rel_1);
        if (number != 0) {
            if (memcmp(&r, &before, sizeof r) != 0)
                fail("a refused call touched an output");
            printf("refused %" PRIu32 "\n", number);
        } else {
            check(slots, borders, flags, num_flags, mark, &r);
            print_record(&r);
        }
    }
    return 0;
}
