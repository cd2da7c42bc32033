/*
 * The deepest stack of each call: it runs on a stack of its own that was painted before, and what is no longer painted was used. What an
 * empty call uses is taken off.
 *
 * usage: stack
 */
#define _XOPEN_SOURCE 700
#include "sbr_grid.h"

#include <stdio.h>
#include <string.h>
#include <ucontext.h>

enum { SIZE = 1 << 18, PAINT = 0xa5, BYTES = 64 };

static uint8_t stack[SIZE];
static ucontext_t back, there;

static double samples[SBR_SAMPLES_16], energies[SBR_MAX_ENERGIES];
static const uint8_t high[] = {0, 2, 4, 6, 8, 10, 12, 14, 16, 20, 24, 28, 32, 40, 48, 56, 64}, low[] = {0, 4, 8, 12, 16, 24, 32, 48, 64};
static uint8_t values[SBR_MAX_ENERGIES], bytes[BYTES], freq_res[SBR_MAX_ENVELOPES], rel_0[SBR_MAX_REL_BORD], rel_1[SBR_MAX_REL_BORD];
static uint32_t numbers[SBR_NUMBERS], t_e[SBR_MAX_BORDERS], t_q[SBR_MAX_NOISE_BORDERS], transient, result;
static uint64_t position, count, slots;
static int32_t border, l_a;

static void empty(void) { result = 0; }

static void elect(void)
{
    result = sbr_elect_grid(samples, SBR_SAMPLES_16, high, sizeof high, low, sizeof low, border, 1, slots, &transient, numbers, freq_res, rel_0, rel_1);
}

static void derive(void)
{
    result = sbr_derive_time_grid(slots, numbers[0], numbers[1], numbers[2], (uint8_t)numbers[3], (uint8_t)numbers[4], rel_0, 4,
                                  numbers[5], rel_1, 4, numbers[6], (uint8_t)numbers[7], t_e, t_q, &l_a);
}

static void write_it(void)
{
    position = 3;
    result = sbr_write_grid(bytes, BYTES, &position, numbers[0], numbers[1], freq_res, 5, (uint8_t)numbers[3], (uint8_t)numbers[4],
                            rel_0, 4, numbers[5], rel_1, 4, numbers[6], (uint8_t)numbers[7]);
}

static void read_it(void)
{
    position = 3;
    int32_t before = border;
    uint32_t attack = 0, begins;
    result = sbr_read_grid(bytes, BYTES, slots, &position, &border, &attack, &begins, numbers, freq_res, rel_0, rel_1, t_e, t_q, &l_a);
    border = before;
}

static void estimate(void)
{
    result = sbr_estimate_envelopes(samples, SBR_SAMPLES_16, high, sizeof high, low, sizeof low, slots, numbers[0], numbers[1], numbers[2], freq_res,
                                    5, (uint8_t)numbers[3], (uint8_t)numbers[4], rel_0, 4, numbers[5], rel_1, 4, numbers[6],
                                    (uint8_t)numbers[7], energies, SBR_MAX_ENERGIES, &count);
}

/* By either step: both slot counts are run through. */
static void quantise(void)
{
    uint32_t amp_res = slots == 16;
    result = sbr_quantise_envelopes(energies, SBR_MAX_ENERGIES, amp_res, values, SBR_MAX_ENERGIES);
}

/* Borders that VarVar alone can send, with 3 leading lengths: every shape is tried. */
static void name(void)
{
    const int32_t borders[SBR_MAX_BORDERS] = {1, 3, 5, 7, 10, 18};
    const uint8_t resolutions[SBR_MAX_ENVELOPES] = {1, 0, 1, 0, 1};
    result = sbr_grid_for_borders(slots, borders, SBR_MAX_BORDERS, resolutions, SBR_MAX_ENVELOPES, 2, numbers, freq_res, rel_0, rel_1);
}

static void send(void)
{
    position = 3;
    int32_t before = border;
    result = sbr_send_frame(samples, SBR_SAMPLES_16, high, sizeof high, low, sizeof low, 1, slots, bytes, BYTES, &position, &border, &transient,
                            numbers, freq_res, rel_0, rel_1, t_e, t_q, &l_a);
    border = before;
}

static size_t depth(void (*call)(void))
{
    memset(stack, PAINT, SIZE);
    getcontext(&there);
    there.uc_stack.ss_sp = stack;
    there.uc_stack.ss_size = SIZE;
    there.uc_link = &back;
    makecontext(&there, call, 0);
    swapcontext(&back, &there);
    size_t i = 0;
    while (i < SIZE && stack[i] == PAINT)
        i++;
    return SIZE - i;
}

/* One sample in each of the onsets' slots, four or more apart, over a quiet ground. */
static void sound(unsigned onsets)
{
    memset(samples, 0, sizeof samples);
    for (unsigned s = 0; s < 24; s++)
        for (unsigned k = 0; k < SBR_BANDS; k++)
            samples[((2 * s + 2) * SBR_BANDS + k) * 2] = 1.0 + k % 3;
    for (unsigned i = 0; i < onsets; i++)
        samples[((2 * (5 + 4 * i) + 2) * SBR_BANDS + 10) * 2] = 4000.0;
}

int main(void)
{
    static const struct {
        const char *name;
        void (*call)(void);
    } CALLS[] = {{"sbr_elect_grid", elect},  {"sbr_derive_time_grid", derive},     {"sbr_write_grid", write_it},
                 {"sbr_read_grid", read_it}, {"sbr_estimate_envelopes", estimate}, {"sbr_quantise_envelopes", quantise},
                 {"sbr_send_frame", send}, {"sbr_grid_for_borders", name}};
    enum { COUNT = sizeof CALLS / sizeof CALLS[0] };
    size_t deepest[COUNT] = {0}, ground = depth(empty);
    for (slots = 15; slots <= 16; slots++)
        for (unsigned onsets = 0; onsets < 4; onsets++)
            for (int lead = 0; lead < 4; lead++)
                for (unsigned i = 0; i < COUNT; i++) {
                    sound(onsets);
                    border = (int32_t)slots + lead;
                    size_t used = depth(CALLS[i].call);
                    if (result != 0) {
                        printf("stack: %s refused %u\n", CALLS[i].name, result);
                        return 1;
                    }
                    if (used - ground > deepest[i])
                        deepest[i] = used - ground;
                }
    for (unsigned i = 0; i < COUNT; i++)
        printf("  %-24s %6zu bytes\n", CALLS[i].name, deepest[i]);
    return 0;
}
