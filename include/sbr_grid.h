/*
 * The SBR time grid for a C host: electing a frame's grid from its samples, its envelopes' energies and their quantised values, reading
 * and writing sbr_grid() (ISO/IEC 14496-3, Table 4.69), its time grid (4.6.18.3.3), and the grid for borders that are named.
 *
 * Link with the static library that `tools/build library` makes (target/staticlib/libsbr_c.a).
 *
 * Every call answers 0 for a full result, or the number of a refusal (SBR_REFUSED_..). A refused call leaves everything that was
 * lent to it as it was. Any number may be handed in (border bytes and pointers are bytes: C cuts a larger number before the call
 * sees it). What the caller answers for: a pointer is valid for the length or the fixed
 * size beside it (a range of length 0 needs a pointer that is not null), and the ranges lent to one call do not overlap.
 *
 * A range is a pointer and a length. Bit positions count from the first bit of a range, most significant bit of a byte first.
 */
#ifndef SBR_GRID_H
#define SBR_GRID_H

#include <stddef.h>
#include <stdint.h>

#ifdef __cplusplus
extern "C" {
#endif

/* Numbers of refusals. */
enum {
    SBR_REFUSED_SLOT_COUNT = 1, /* the slot count is neither 15 nor 16 */
    SBR_REFUSED_SAMPLES = 2,    /* too few samples */
    SBR_REFUSED_TABLES = 3,     /* the band tables */
    SBR_REFUSED_ROOM = 4,       /* too little room for what is to be written; a position past the end is this */
    SBR_REFUSED_RECORD = 5,     /* a record that sbr_grid() can't carry or that can't be formed of what was handed in, or a switch or resolution above 1 */
    SBR_REFUSED_TIME_GRID = 6,  /* a record that has no time grid */
    SBR_REFUSED_BITS_END = 7,   /* the bits end before a field is complete, or the position lies past them */
    SBR_REFUSED_COUNT = 8,      /* FIXFIX code 3, or VARVAR with more than 5 envelopes */
    SBR_REFUSED_CHAIN = 9,      /* the frame does not begin where the one before it ended */
    SBR_REFUSED_NO_GRID = 10    /* no grid that can be written has the borders, resolutions and mark that are named */
};

/* Frame classes (bs_frame_class). */
enum { SBR_FIXFIX = 0, SBR_FIXVAR = 1, SBR_VARFIX = 2, SBR_VARVAR = 3 };

/* Limits of a record. */
enum {
    SBR_MAX_ENVELOPES = 5,    /* envelopes; there is one border more */
    SBR_MAX_REL_BORD = 4,     /* entries of a list of relative lengths */
    SBR_MAX_BORDERS = 6,
    SBR_MAX_NOISE_BORDERS = 3
};

/* Numbers that samples need: columns of 64 bands, a pair (real, imaginary) each, two columns to a slot, from column 2 on. */
enum { SBR_SAMPLES_16 = 6400, SBR_SAMPLES_15 = 6144, SBR_BANDS = 64 };

/* Most numbers that sbr_estimate_envelopes gives. */
enum { SBR_MAX_ENERGIES = 5 * 64 };

/* The highest values that sbr_quantise_envelopes gives, by its step. */
enum { SBR_MAX_COARSE = 63, SBR_MAX_FINE = 127 };

/* Places in the numbers of a record that a call gives. */
enum {
    SBR_FRAME_CLASS = 0,
    SBR_NUM_ENV = 1,   /* bs_num_env: how many of freq_res, and of t_e less one, are in use */
    SBR_NUM_NOISE = 2, /* bs_num_noise: how many of t_q less one are in use */
    SBR_VAR_BORD_0 = 3,
    SBR_VAR_BORD_1 = 4,
    SBR_NUM_REL_0 = 5, /* how many of rel_bord_0 are in use */
    SBR_NUM_REL_1 = 6, /* how many of rel_bord_1 are in use */
    SBR_POINTER = 7,
    SBR_AMP_RES_OVERRIDE = 8, /* 1 for a single FIXFIX envelope: bs_amp_res is 0 for this frame */
    SBR_NUMBERS = 9
};

/*
 * Writes sbr_grid() of a record at a bit position and moves the position past it. The bits from there to the end of the byte in which
 * the grid ends are cleared, none where it ends with its byte; every other bit is kept. So bytes that are written from position 0 on can be
 * sent or compared whole, up to the one in which the last grid ends, whatever stood in them before. What else is to stand in that byte
 * has to be written after the grid: what stood there behind it is lost.
 * Refused by 5 (a class above 3, a flag above 1, a range shorter than its count, a record that sbr_grid() can't carry), then 4.
 *
 * bytes, bytes_len          where the bits go
 * position                  bit position; moved past the last bit written
 * frame_class               0 to 3
 * num_env                   envelopes, 1 to 5
 * freq_res, freq_res_len    a byte for each envelope: 1 for high resolution, 0 for low; more are unread
 * var_bord_0, var_bord_1    border bytes, 0 to 3 (also the one that the class does not send)
 * rel_bord_0, .._len        stored relative lengths of the leading side, 0 to 3 each (r means 2 r + 2 slots); more are unread
 * num_rel_0                 how many of them are in use, at most 4
 * rel_bord_1, .._len, num_rel_1    the same for the trailing side, the last envelope's first
 * pointer                   bs_pointer, at most num_env
 */
uint32_t sbr_write_grid(uint8_t *bytes, size_t bytes_len, uint64_t *position, uint32_t frame_class, uint64_t num_env,
                        const uint8_t *freq_res, size_t freq_res_len, uint8_t var_bord_0, uint8_t var_bord_1,
                        const uint8_t *rel_bord_0, size_t rel_bord_0_len, uint64_t num_rel_0, const uint8_t *rel_bord_1,
                        size_t rel_bord_1_len, uint64_t num_rel_1, uint8_t pointer);

/*
 * The time grid of a record, also of one that can't be written. Refused by 1, then 5 (a class above 3, a range shorter than its
 * count), then 6. VARFIX and VARVAR use the leading border byte and list (0), FIXVAR and VARVAR the trailing ones (1).
 *
 * num_time_slots            15 or 16
 * frame_class               0 to 3
 * num_env                   envelopes, 1 to 5
 * num_noise                 1 for one envelope, 2 for more
 * var_bord_0, var_bord_1    border bytes: 0 to 3, above 3 is refused by 6; one that the class does not use is not looked at
 * rel_bord_0, .._len        stored relative lengths of the leading side, also above 3 (r means 2 r + 2 slots); more are unread
 * num_rel_0                 how many of them are in use, at most 4
 * rel_bord_1, .._len, num_rel_1    the same for the trailing side, the last envelope's first
 * pointer                   bs_pointer, at most num_env; that of one envelope is not checked, that of FIXFIX is not looked at
 * t_e                       num_env + 1 borders, in slots; the other places are 0
 * t_q                       num_noise + 1 noise borders; the other places are 0
 * l_a                       the marked envelope, -1 for none: num_env + 1 - pointer in FIXVAR and VARVAR (none for pointer 0, past the
 *                           last envelope for 1), pointer - 1 in VARFIX (none below 2)
 */
uint32_t sbr_derive_time_grid(uint64_t num_time_slots, uint32_t frame_class, uint64_t num_env, uint64_t num_noise,
                              uint8_t var_bord_0, uint8_t var_bord_1, const uint8_t *rel_bord_0, size_t rel_bord_0_len,
                              uint64_t num_rel_0, const uint8_t *rel_bord_1, size_t rel_bord_1_len, uint64_t num_rel_1,
                              uint8_t pointer, uint32_t t_e[SBR_MAX_BORDERS], uint32_t t_q[SBR_MAX_NOISE_BORDERS], int32_t *l_a);

/*
 * Reads the frame at a bit position. Refused by 1, then 7 or 8 as fields come, then 6, then 9.
 *
 * bytes, bytes_len    where the bits are; they end with the last byte
 * num_time_slots      15 or 16
 * position            bit position; moved past the frame
 * border              the last border of the frame before (the slot count for a first frame without a lead); the last border
 *                     of this frame after it
 * attack              any number but 0 where the frame before marks an attack at its very end (0 for a first frame); 1 where this
 *                     frame does (l_a is num_env), else 0. A refusal leaves the number that was handed in
 * begins_on_attack    1 where the frame begins on an attack, which belongs to its first envelope: attack was handed in set; else 0
 * numbers             the record's numbers, by the places above
 * freq_res            a byte for each envelope, 1 for high resolution; the other places are 0
 * rel_bord_0, rel_bord_1    stored relative lengths; the other places are 0
 * t_e, t_q, l_a       the time grid, as in sbr_derive_time_grid
 */
uint32_t sbr_read_grid(const uint8_t *bytes, size_t bytes_len, uint64_t num_time_slots, uint64_t *position, int32_t *border,
                       uint32_t *attack, uint32_t *begins_on_attack, uint32_t numbers[SBR_NUMBERS],
                       uint8_t freq_res[SBR_MAX_ENVELOPES], uint8_t rel_bord_0[SBR_MAX_REL_BORD],
                       uint8_t rel_bord_1[SBR_MAX_REL_BORD], uint32_t t_e[SBR_MAX_BORDERS],
                       uint32_t t_q[SBR_MAX_NOISE_BORDERS], int32_t *l_a);

/*
 * The grid for borders that are named: the record whose time grid has exactly these borders and this mark, with these resolutions, as
 * sbr_read_grid gives it for its bits; sbr_write_grid takes it, wherever there is room. Of several such records it is the one with the fewest
 * written bits, then the smaller class, fewer leading lengths, the smaller pointer. Its noise borders are those of its class and pointer.
 * Refused by 1, then 5 (a resolution above 1), then 10, exactly where no record that can be written has them: also unless there are
 * two to six borders and one resolution fewer.
 *
 * num_time_slots                15 or 16
 * borders, borders_len          the borders in slots, the first to the last; all of the range, any numbers
 * resolutions, resolutions_len  a byte for each envelope: 1 for high resolution, 0 for low; all of the range
 * l_a                           the marked envelope, -1 for none; the envelope count marks an attack at the very end of the frame
 * numbers, freq_res, rel_bord_0, rel_bord_1    the record, as in sbr_read_grid
 */
uint32_t sbr_grid_for_borders(uint64_t num_time_slots, const int32_t *borders, size_t borders_len, const uint8_t *resolutions,
                              size_t resolutions_len, int32_t l_a, uint32_t numbers[SBR_NUMBERS],
                              uint8_t freq_res[SBR_MAX_ENVELOPES], uint8_t rel_bord_0[SBR_MAX_REL_BORD],
                              uint8_t rel_bord_1[SBR_MAX_REL_BORD]);

/*
 * Elects the grid of a frame from its samples. Refused by 1, then 5 (variable_borders above 1), then 3, then 2.
 *
 * samples, samples_len    at least 6400 numbers for 16 slots, 6144 for 15; column c, band k has its real part at (c * 64 + k) * 2 and
 *                         its imaginary part behind it; more are unread
 * high, high_len          band borders of high resolution: two or more, rising, 0 to 64
 * low, low_len            band borders of low resolution: rising, each one of high, with the same ends
 * previous_border         the last border of the frame before (the slot count for a first frame); any number
 * variable_borders        1 where borders may vary, else 0
 * num_time_slots          15 or 16
 * transient               1 where the frame has an onset, else 0
 * numbers, freq_res, rel_bord_0, rel_bord_1    the record, as in sbr_read_grid
 */
uint32_t sbr_elect_grid(const double *samples, size_t samples_len, const uint8_t *high, size_t high_len, const uint8_t *low,
                        size_t low_len, int32_t previous_border, uint32_t variable_borders, uint64_t num_time_slots,
                        uint32_t *transient, uint32_t numbers[SBR_NUMBERS], uint8_t freq_res[SBR_MAX_ENVELOPES],
                        uint8_t rel_bord_0[SBR_MAX_REL_BORD], uint8_t rel_bord_1[SBR_MAX_REL_BORD]);

/*
 * The energies of a record's envelopes over the samples: a row for each envelope, first to last, with a mean for each band of the
 * table of its resolution, lowest first; the rows one after another.
 * Refused by 1, then 5 (a class above 3, a flag above 1, a range shorter than its count), 3, 2, 6, 4.
 *
 * freq_res, freq_res_len    a byte for each envelope: 1 for high resolution, 0 for low; more are unread
 * out, out_len              where the rows go; numbers past them are kept
 * count                     how many numbers the rows hold
 * The samples and tables are as in sbr_elect_grid, the others as in sbr_derive_time_grid.
 */
uint32_t sbr_estimate_envelopes(const double *samples, size_t samples_len, const uint8_t *high, size_t high_len,
                                const uint8_t *low, size_t low_len, uint64_t num_time_slots, uint32_t frame_class,
                                uint64_t num_env, uint64_t num_noise, const uint8_t *freq_res, size_t freq_res_len,
                                uint8_t var_bord_0, uint8_t var_bord_1, const uint8_t *rel_bord_0, size_t rel_bord_0_len,
                                uint64_t num_rel_0, const uint8_t *rel_bord_1, size_t rel_bord_1_len, uint64_t num_rel_1,
                                uint8_t pointer, double *out, size_t out_len, uint64_t *count);

/*
 * Quantises energies: their scale steps, a byte for each, in their order. Let r be an energy over 64. Its value is the largest whole q
 * for which r^2 >= 2^(2q - 1), but at most 63, with the coarse step, of 3 dB; for which r^4 >= 2^(2q - 1), but at most 127, with the fine
 * step, of 1.5 dB. Energies up to 64, negative ones and minus infinity among them, and NaN have the value 0; infinity has the highest.
 * Nothing is rounded on the way: the value is exact for every double.
 * Refused by 5 (amp_res above 1), then 4 (fewer bytes than energies).
 *
 * energy, energy_len    the energies, any doubles; of sbr_estimate_envelopes: what it gave in out, and count as the length
 * amp_res               1 for the coarse step, 0 for the fine one: bs_amp_res, which is 0 in a frame with SBR_AMP_RES_OVERRIDE 1
 * out, out_len          where the values go; bytes past them are kept
 */
uint32_t sbr_quantise_envelopes(const double *energy, size_t energy_len, uint32_t amp_res, uint8_t *out, size_t out_len);

/*
 * A transmitter's turn: elects the grid of a frame from its samples, takes its time grid, writes it at the bit position as sbr_write_grid
 * does (the rest of the byte in which it ends is cleared until the next turn writes there), and moves position and border on. Refused by
 * 1, then 5 (variable_borders above 1), 3, 2, 4; nothing moves then. Read such frames with sbr_read_grid.
 *
 * border    the last border of the frame before (the slot count for a first frame); the last border of this frame after it
 * No attack flag is carried: a frame that is sent never marks an attack at its very end.
 * The others are as in sbr_elect_grid, sbr_write_grid and sbr_derive_time_grid.
 */
uint32_t sbr_send_frame(const double *samples, size_t samples_len, const uint8_t *high, size_t high_len, const uint8_t *low,
                        size_t low_len, uint32_t variable_borders, uint64_t num_time_slots, uint8_t *bytes, size_t bytes_len,
                        uint64_t *position, int32_t *border, uint32_t *transient, uint32_t numbers[SBR_NUMBERS],
                        uint8_t freq_res[SBR_MAX_ENVELOPES], uint8_t rel_bord_0[SBR_MAX_REL_BORD],
                        uint8_t rel_bord_1[SBR_MAX_REL_BORD], uint32_t t_e[SBR_MAX_BORDERS],
                        uint32_t t_q[SBR_MAX_NOISE_BORDERS], int32_t *l_a);

#ifdef __cplusplus
}
#endif

#endif
