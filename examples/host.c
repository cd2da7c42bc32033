/*
 * Writes four frames, the third with an attack marked at its very end, reads them back and prints what was read; prints the record for borders
 * that are named; then elects the grid of a frame with an attack and prints its energies, each with its values by the coarse and by the fine step.
 */
#include "sbr_grid.h"

#include <inttypes.h>
#include <stdio.h>
#include <string.h>

static const char *const CLASSES[] = {"FixFix", "FixVar", "VarFix", "VarVar"};

static int refused(const char *call, uint32_t number)
{
    printf("%s refused %" PRIu32 "\n", call, number);
    return 1;
}

int main(void)
{
    /* what stands here before does not matter: the rest of the last byte written is cleared */
    uint8_t bytes[8];
    memset(bytes, 0xFF, sizeof bytes);
    uint64_t at = 0;

    /* one envelope of high resolution; an attack at slot 10: envelopes 0..10, 10..12, 12..16; one envelope whose pointer marks its end; the first again */
    const uint8_t high[1] = {1}, low[3] = {0, 0, 0}, trailing[2] = {1, 0}, none[1] = {0};
    uint32_t r = sbr_write_grid(bytes, sizeof bytes, &at, SBR_FIXFIX, 1, high, 1, 0, 0, none, 1, 0, none, 1, 0, 0);
    if (r != 0)
        return refused("write", r);
    r = sbr_write_grid(bytes, sizeof bytes, &at, SBR_FIXVAR, 3, low, 3, 0, 0, none, 1, 0, trailing, 2, 2, 3);
    if (r != 0)
        return refused("write", r);
    r = sbr_write_grid(bytes, sizeof bytes, &at, SBR_FIXVAR, 1, low, 1, 0, 0, none, 1, 0, none, 1, 0, 1);
    if (r != 0)
        return refused("write", r);
    r = sbr_write_grid(bytes, sizeof bytes, &at, SBR_FIXFIX, 1, high, 1, 0, 0, none, 1, 0, none, 1, 0, 0);
    if (r != 0)
        return refused("write", r);
    printf("%" PRIu64 " bits:", at);
    for (uint64_t i = 0; i < (at + 7) / 8; i++)
        printf(" %02X", bytes[i]);
    printf("\n");

    /* what a receiver carries from frame to frame: position, border, and whether the frame before marks an attack at its very end */
    uint64_t position = 0;
    int32_t border = 16;
    uint32_t attack = 0;
    for (int frame = 0; frame < 4; frame++) {
        uint32_t begins, numbers[SBR_NUMBERS], t_e[SBR_MAX_BORDERS], t_q[SBR_MAX_NOISE_BORDERS];
        uint8_t freq_res[SBR_MAX_ENVELOPES], rel_0[SBR_MAX_REL_BORD], rel_1[SBR_MAX_REL_BORD];
        int32_t mark;
        r = sbr_read_grid(bytes, sizeof bytes, 16, &position, &border, &attack, &begins, numbers, freq_res, rel_0, rel_1, t_e, t_q, &mark);
        if (r != 0)
            return refused("read", r);
        printf("frame %d: %s, borders", frame, CLASSES[numbers[SBR_FRAME_CLASS]]);
        for (uint32_t i = 0; i <= numbers[SBR_NUM_ENV]; i++)
            printf(" %" PRIu32, t_e[i]);
        printf(", noise borders");
        for (uint32_t i = 0; i <= numbers[SBR_NUM_NOISE]; i++)
            printf(" %" PRIu32, t_q[i]);
        printf(", mark %" PRId32 ", resolutions ", mark);
        for (uint32_t i = 0; i < numbers[SBR_NUM_ENV]; i++)
            putchar(freq_res[i] ? 'H' : 'L');
        printf("%s%s; next position %" PRIu64 ", border %" PRId32 "\n", begins ? ", begins on an attack" : "", attack ? ", marks an attack at its very end" : "",
               position, border);
    }

    /* the record for named borders, which sbr_write_grid takes as it is; and borders that no grid has */
    const int32_t borders[4] = {0, 10, 12, 16}, odd[4] = {0, 11, 13, 16};
    uint32_t named[SBR_NUMBERS];
    uint8_t named_res[SBR_MAX_ENVELOPES], named_0[SBR_MAX_REL_BORD], named_1[SBR_MAX_REL_BORD];
    r = sbr_grid_for_borders(16, borders, 4, low, 3, 1, named, named_res, named_0, named_1);
    if (r != 0)
        return refused("named borders", r);
    printf("borders 0 10 12 16, mark 1: %s, trailing lengths", CLASSES[named[SBR_FRAME_CLASS]]);
    for (uint32_t i = 0; i < named[SBR_NUM_REL_1]; i++)
        printf(" %u", named_1[i]);
    printf(", pointer %" PRIu32 "\n", named[SBR_POINTER]);
    r = sbr_grid_for_borders(16, odd, 4, low, 3, 1, named, named_res, named_0, named_1);
    if (r != SBR_REFUSED_NO_GRID)
        return refused("borders that no grid has", r);
    printf("borders 0 11 13 16, mark 1: no grid\n");

    /* a frame with an attack in slot 10 */
    static double samples[SBR_SAMPLES_16];
    const uint8_t table_high[4] = {10, 12, 16, 20}, table_low[2] = {10, 20};
    for (int slot = 0; slot < 24; slot++)
        samples[((2 * slot + 2) * SBR_BANDS + 11) * 2] = slot == 10 ? 4000.0 : 100.0;
    uint32_t transient, elected[SBR_NUMBERS];
    uint8_t res[SBR_MAX_ENVELOPES], leading[SBR_MAX_REL_BORD], backward[SBR_MAX_REL_BORD];
    r = sbr_elect_grid(samples, SBR_SAMPLES_16, table_high, 4, table_low, 2, 16, 1, 16, &transient, elected, res, leading, backward);
    if (r != 0)
        return refused("elect", r);
    double energies[SBR_MAX_ENERGIES];
    uint64_t count;
    r = sbr_estimate_envelopes(samples, SBR_SAMPLES_16, table_high, 4, table_low, 2, 16, elected[SBR_FRAME_CLASS],
                               elected[SBR_NUM_ENV], elected[SBR_NUM_NOISE], res, SBR_MAX_ENVELOPES,
                               (uint8_t)elected[SBR_VAR_BORD_0], (uint8_t)elected[SBR_VAR_BORD_1], leading, SBR_MAX_REL_BORD,
                               elected[SBR_NUM_REL_0], backward, SBR_MAX_REL_BORD, elected[SBR_NUM_REL_1],
                               (uint8_t)elected[SBR_POINTER], energies, SBR_MAX_ENERGIES, &count);
    if (r != 0)
        return refused("energies", r);
    uint8_t coarse[SBR_MAX_ENERGIES], fine[SBR_MAX_ENERGIES];
    r = sbr_quantise_envelopes(energies, (size_t)count, 1, coarse, sizeof coarse);
    if (r != 0)
        return refused("quantise", r);
    r = sbr_quantise_envelopes(energies, (size_t)count, 0, fine, sizeof fine);
    if (r != 0)
        return refused("quantise", r);
    printf("elected: %s, %" PRIu32 " envelopes, %s; energies (coarse, fine values)", CLASSES[elected[SBR_FRAME_CLASS]], elected[SBR_NUM_ENV],
           transient ? "an onset" : "no onset");
    for (uint64_t i = 0; i < count; i++)
        printf(" %g (%u, %u)", energies[i], coarse[i], fine[i]);
    printf("\n");
    return 0;
}
