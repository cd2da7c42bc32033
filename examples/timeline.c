/*
 * Draws frames as timelines of their envelopes.
 *
 * usage: timeline           a transmitter sends frames of made-up speech with attacks, a receiver reads them, and each is drawn
 *        timeline FILE      draws a stream in the input format of gridlist (slot count, first border, count of frames, a byte each;
 *                           then the bits); - for standard input
 *
 * A frame is drawn over its slots: | a border, = an envelope of high resolution, - of low, # the marked one; below it the noise borders. * is the first border
 * of a frame that begins on an attack, which the frame before marks at its very end.
 */
#include "sbr_grid.h"

#include <inttypes.h>
#include <math.h>
#include <stdio.h>
#include <string.h>

enum { SLOT_WIDTH = 3, MAX_SLOTS = 16 + 3, WIDTH = MAX_SLOTS * SLOT_WIDTH + 1, MAX_INPUT = 3 + 255 * 4 + 1 };

static const char *const CLASSES[] = {"FixFix", "FixVar", "VarFix", "VarVar"};

/* The slots, every fourth with its number. */
static void draw_slots(unsigned slots)
{
    printf("%-22s", "");
    for (unsigned s = 0; s <= slots + 3; s += 4)
        printf("%-*u", 4 * SLOT_WIDTH, s);
    printf("\n");
}

static void draw_line(const char *name, const char *line, int width)
{
    printf("%-22s%.*s\n", name, width, line);
}

/* One frame: its timeline, its noise borders, its bits. */
static void draw_frame(unsigned number, const uint8_t *bytes, uint64_t from, uint64_t to, const uint32_t numbers[SBR_NUMBERS],
                       const uint8_t freq_res[SBR_MAX_ENVELOPES], const uint32_t t_e[SBR_MAX_BORDERS],
                       const uint32_t t_q[SBR_MAX_NOISE_BORDERS], int32_t mark, uint32_t begins_on_attack)
{
    char line[WIDTH], noise[WIDTH], name[64];
    uint32_t envelopes = numbers[SBR_NUM_ENV];
    memset(line, ' ', sizeof line);
    memset(noise, ' ', sizeof noise);
    for (uint32_t l = 0; l < envelopes; l++) {
        char fill = (int32_t)l == mark ? '#' : freq_res[l] ? '=' : '-';
        for (uint32_t x = t_e[l] * SLOT_WIDTH; x < t_e[l + 1] * SLOT_WIDTH; x++)
            line[x] = fill;
    }
    for (uint32_t l = 0; l <= envelopes; l++)
        line[t_e[l] * SLOT_WIDTH] = l == 0 && begins_on_attack ? '*' : '|';
    for (uint32_t l = 0; l <= numbers[SBR_NUM_NOISE]; l++)
        noise[t_q[l] * SLOT_WIDTH] = '\'';
    snprintf(name, sizeof name, "frame %-3u %s ", number, CLASSES[numbers[SBR_FRAME_CLASS]]);
    draw_line(name, line, WIDTH);
    snprintf(name, sizeof name, "  mark %-2" PRId32 " ", mark);
    size_t end = strlen(name);
    for (uint32_t l = 0; l < envelopes && end + 1 < sizeof name; l++)
        name[end++] = freq_res[l] ? 'H' : 'L';
    name[end] = 0;
    draw_line(name, noise, WIDTH);
    printf("  bits %" PRIu64 " to %" PRIu64 ": ", from, to);
    for (uint64_t i = from; i < to; i++)
        putchar('0' + (bytes[i / 8] >> (7 - i % 8) & 1));
    printf("\n");
}

/* Reads and draws frames; 0, or the number of a refusal. */
static uint32_t draw(const uint8_t *bytes, size_t length, unsigned slots, int32_t border, unsigned count, uint64_t position)
{
    uint32_t attack = 0;
    draw_slots(slots);
    for (unsigned i = 0; i < count; i++) {
        uint32_t begins, numbers[SBR_NUMBERS], t_e[SBR_MAX_BORDERS], t_q[SBR_MAX_NOISE_BORDERS];
        uint8_t freq_res[SBR_MAX_ENVELOPES], rel_0[SBR_MAX_REL_BORD], rel_1[SBR_MAX_REL_BORD];
        int32_t mark;
        uint64_t from = position;
        uint32_t r = sbr_read_grid(bytes, length, slots, &position, &border, &attack, &begins, numbers, freq_res, rel_0, rel_1, t_e, t_q, &mark);
        if (r != 0) {
            printf("frame %-3u refused %" PRIu32 "\n", i, r);
            return r;
        }
        draw_frame(i, bytes, from, position, numbers, freq_res, t_e, t_q, mark, begins);
    }
    return 0;
}

static uint32_t draw_stream(const char *name)
{
    static uint8_t input[MAX_INPUT];
    FILE *in = strcmp(name, "-") == 0 ? stdin : fopen(name, "rb");
    if (in == NULL) {
        perror(name);
        return 1;
    }
    size_t length = fread(input, 1, sizeof input, in);
    if (in != stdin)
        fclose(in);
    if (length < 3) {
        printf("refused %d\n", SBR_REFUSED_BITS_END);
        return SBR_REFUSED_BITS_END;
    }
    /* a range of length 0 needs a pointer that is not null, which it has */
    return draw(input + 3, length - 3, input[0], input[1], input[2], 0);
}

/* A number from -1 to 1 that depends on its place alone. */
static double noise_at(uint32_t column, uint32_t band, uint32_t part)
{
    uint32_t x = column * 0x9e3779b1u ^ band * 0x85ebca6bu ^ part * 0xc2b2ae35u;
    x ^= x >> 15;
    x *= 0x2c1b3c6du;
    x ^= x >> 12;
    x *= 0x297a2d39u;
    x ^= x >> 15;
    return x / 2147483647.5 - 1.0;
}

/* How loud the made-up speech is in a slot: syllables that begin at once or by and by, and die away. */
static double loudness(unsigned slot)
{
    static const struct {
        unsigned at;
        double strength;
        int sudden;
    } SYLLABLES[] = {{20, 300, 1}, {44, 60, 0}, {70, 900, 1}, {76, 2500, 1}, {100, 500, 1}, {104, 1500, 1}, {108, 5000, 1}, {127, 800, 1}, {142, 80, 0}};
    double sum = 2.0;
    for (size_t i = 0; i < sizeof SYLLABLES / sizeof SYLLABLES[0]; i++) {
        double since = (double)slot - SYLLABLES[i].at;
        if (since >= 0)
            sum += SYLLABLES[i].strength * exp(-since / 5.0);
        else if (!SYLLABLES[i].sudden)
            sum += SYLLABLES[i].strength * exp(since / 6.0);
    }
    return sum;
}

/* Sends ten frames and draws what is read of them. */
static uint32_t draw_speech(void)
{
    enum { SLOTS = 16, FRAMES = 10, COLUMNS = 2 * (SLOTS + 8) + 2 };
    static const uint8_t high[] = {20, 22, 24, 26, 29, 32, 36, 40, 45}, low[] = {20, 24, 29, 36, 45};
    static double samples[SBR_SAMPLES_16];
    uint8_t bytes[FRAMES * 4] = {0};
    uint64_t position = 0;
    int32_t border = SLOTS;
    for (unsigned f = 0; f < FRAMES; f++) {
        for (unsigned c = 0; c < COLUMNS; c++)
            for (unsigned k = 0; k < SBR_BANDS; k++)
                for (unsigned part = 0; part < 2; part++) {
                    /* column 2 is the first of slot 0 */
                    unsigned column = f * 2 * SLOTS + c;
                    double tilt = exp(-(double)k / 16.0);
                    samples[(c * SBR_BANDS + k) * 2 + part] = loudness(column < 2 ? 0 : (column - 2) / 2) * tilt * noise_at(column, k, part);
                }
        uint32_t transient, numbers[SBR_NUMBERS], t_e[SBR_MAX_BORDERS], t_q[SBR_MAX_NOISE_BORDERS];
        uint8_t freq_res[SBR_MAX_ENVELOPES], rel_0[SBR_MAX_REL_BORD], rel_1[SBR_MAX_REL_BORD];
        int32_t mark;
        uint32_t r = sbr_send_frame(samples, SBR_SAMPLES_16, high, sizeof high, low, sizeof low, 1, SLOTS, bytes, sizeof bytes, &position,
                                    &border, &transient, numbers, freq_res, rel_0, rel_1, t_e, t_q, &mark);
        if (r != 0) {
            printf("frame %u not sent: refused %" PRIu32 "\n", f, r);
            return r;
        }
    }
    printf("%d frames of made-up speech sent in %" PRIu64 " bits; read back:\n", FRAMES, position);
    return draw(bytes, sizeof bytes, SLOTS, SLOTS, FRAMES, 0);
}

int main(int argc, char **argv)
{
    if (argc > 2) {
        fprintf(stderr, "usage: timeline [FILE|-]\n");
        return 2;
    }
    return (argc == 2 ? draw_stream(argv[1]) : draw_speech()) != 0;
}
