/* Reads a record of version 1, writes one of version 2, and has another refused. Then decodes a frame; a frame of an index sheet,
 * with the standard's tables, and an erased frame after it; and the gains of one index; and has others of each refused.
 * Its last line is 'N passed, M failed'. */
#include "mr74.h"

#include <stdio.h>
#include <string.h>

static int passed, failed;

static void expect(const char *what, int good)
{
    if (good)
        passed++;
    else
        failed++;
    printf("%s %s\n", good ? "ok" : "FAILED", what);
}

static int all_are(uint8_t byte, const uint8_t *bytes, size_t count)
{
    for (size_t i = 0; i < count; i++)
        if (bytes[i] != byte)
            return 0;
    return 1;
}

static int all_zero(const uint8_t *bytes, size_t count)
{
    return all_are(0, bytes, count);
}

static void put_numbers(uint8_t *bytes, const int16_t *numbers, int count)
{
    for (int i = 0; i < count; i++) {
        bytes[2 * i] = (uint8_t)numbers[i];
        bytes[2 * i + 1] = (uint8_t)((unsigned)numbers[i] >> 8);
    }
}

static int are_numbers(const uint8_t *bytes, const int16_t *numbers, int count)
{
    for (int i = 0; i < count; i++)
        if ((int16_t)(bytes[2 * i] | bytes[2 * i + 1] << 8) != numbers[i])
            return 0;
    return 1;
}

static int refused_at(uint32_t code, uint32_t number, uint32_t place)
{
    return MR74_NUMBER(code) == number && MR74_PLACE(code) == place;
}

/* What a state begins with: 0 but for the last lag, 40. */
static void open_state(uint8_t *state)
{
    memset(state, 0, MR74_STATE_BYTES);
    state[2 * 197] = 40;
}

/* The last 8 bytes of a record: tag, version, distance, count. */
static const uint8_t first_trailer[8] = {0x4D, 0x37, 1, 0, 0x8A, 1, 0xC5, 0}, trailer[8] = {0x4D, 0x37, 2, 0, 0xAA, 1, 0xD5, 0};

static void records(void)
{
    uint8_t first[3 + MR74_FIRST_RECORD_BYTES] = {'a', 'b', 'c'}, record[MR74_RECORD_BYTES] = {0}, again[MR74_RECORD_BYTES];
    uint8_t state[MR74_STATE_BYTES], opened[MR74_STATE_BYTES];
    size_t note = 0;
    uint32_t code;

    open_state(opened);
    memcpy(first + sizeof first - sizeof first_trailer, first_trailer, sizeof first_trailer);
    code = mr74_read(first, sizeof first, state, sizeof state, &note);
    expect("a version 1 record of zeros behind a note of 3 bytes is read, with last lag 40", code == 0 && note == 3 && memcmp(state, opened, sizeof state) == 0);
    code = mr74_write(state, sizeof state, again, sizeof again);
    expect("its state is written as a version 2 record", code == 0 && memcmp(again, state, sizeof state) == 0 && memcmp(again + sizeof state, trailer, sizeof trailer) == 0);

    memcpy(record + sizeof state, trailer, sizeof trailer);
    code = mr74_read(record, sizeof record, state, sizeof state, &note);
    expect("a version 2 record of zeros is refused by number 19 at place 197: its last lag is 0", refused_at(code, 19, 197) && note == 0 && all_zero(state, sizeof state));
    code = mr74_write(state, sizeof state, again, sizeof again);
    expect("so is the all-zero state by the writer, and the record stays", refused_at(code, 19, 197) && memcmp(again, opened, sizeof opened) == 0);
    record[sizeof record - 6] = 3;
    expect("version 3 is refused by number 13", mr74_read(record, sizeof record, state, sizeof state, &note) == 13);
}

static void frames(void)
{
    uint8_t state[MR74_STATE_BYTES], sheet[MR74_SHEET_BYTES] = {0};
    uint8_t out[MR74_OUT_BYTES], rows[MR74_ROWS_BYTES], places[MR74_PLACES_BYTES];
    uint32_t code;

    open_state(state);
    code = mr74_frame(sheet, sizeof sheet, state, sizeof state, out, sizeof out, rows, sizeof rows, places, sizeof places);
    expect("a sheet of zeros is refused by number 6 at place 0: its first LSF is below 205", refused_at(code, 6, 0));

    for (int i = 0; i < 10; i++) { /* LSFs 205, 410, .. 2050, as close as they may lie */
        sheet[2 * i] = (uint8_t)(205 * (i + 1));
        sheet[2 * i + 1] = (uint8_t)(205 * (i + 1) >> 8);
    }
    memset(out, 0x5A, sizeof out);
    memset(places, 0x5A, sizeof places);
    code = mr74_frame(sheet, sizeof sheet, state, sizeof state, out, sizeof out, rows, sizeof rows, places, sizeof places);
    expect("a sheet of LSFs alone is accepted: silence, and no subframe retried", code == 0 && all_zero(out, sizeof out) && all_are(40, places, sizeof places));
    expect("every row begins with 4096", rows[0] == 0 && rows[1] == 16 && rows[66] == 0 && rows[67] == 16);

    sheet[8] -= 1; /* LSF 4: 204 above the one before */
    code = mr74_frame(sheet, sizeof sheet, state, sizeof state, out, sizeof out, rows, sizeof rows, places, sizeof places);
    expect("an LSF that is 204 above the one before is refused by number 6 at its place", refused_at(code, 6, 4));

    sheet[18] = 0x01; /* the last LSF: 16385 */
    sheet[19] = 0x40;
    out[0] = 0x5A;
    memset(places, 0x5A, sizeof places);
    code = mr74_frame(sheet, sizeof sheet, state, sizeof state, out, sizeof out, rows, sizeof rows, places, sizeof places);
    expect("an LSF of 16385 is refused by number 2 at place 9", refused_at(code, 2, 9));
    expect("a refused call leaves the output, and gives rows of zeros", out[0] == 0x5A && all_zero(rows, sizeof rows));
    expect("a refused call gives the place 40 four times", all_are(40, places, sizeof places));

    code = mr74_frame(sheet, sizeof sheet - 1, state, sizeof state, out, sizeof out, rows, sizeof rows, places, sizeof places);
    expect("a sheet of 363 bytes is refused by number 1", code == 1);
    code = mr74_frame(sheet, sizeof sheet, state, sizeof state - 1, out, sizeof out, rows, sizeof rows, places, sizeof places);
    expect("a state of 425 bytes does not fit", code == MR74_UNFIT);
}

/* The tables of Log2 and Pow2 in TS 26.073, and the energies of a decoder that has decoded nothing. */
static const int16_t log_numbers[33] = {
    0, 1455, 2866, 4236, 5568, 6863, 8124, 9352, 10549, 11716, 12855, 13967, 15054, 16117, 17156, 18172, 19167, 20142,
    21097, 22033, 22951, 23852, 24735, 25603, 26455, 27291, 28113, 28922, 29716, 30497, 31266, 32023, 32767
};
static const int16_t pow_numbers[33] = {
    16384, 16743, 17109, 17484, 17867, 18258, 18658, 19066, 19484, 19911, 20347, 20792, 21247, 21713, 22188, 22674, 23170,
    23678, 24196, 24726, 25268, 25821, 26386, 26964, 27554, 28158, 28774, 29405, 30048, 30706, 31379, 32066, 32767
};
static const int16_t opening_energies[4] = {-14336, -14336, -14336, -14336};

static uint8_t log_table[MR74_TABLE_BYTES], pow_table[MR74_TABLE_BYTES], energies[MR74_ENERGIES_BYTES];

static void lend_tables(void)
{
    put_numbers(log_table, log_numbers, 33);
    put_numbers(pow_table, pow_numbers, 33);
    put_numbers(energies, opening_energies, 4);
}

/* What an index frame and the erased frame after it are decoded with. */
static uint8_t index_sheet[MR74_INDEX_SHEET_BYTES], erased_sheet[MR74_ERASED_SHEET_BYTES], state[MR74_STATE_BYTES];
static uint8_t kept_state[MR74_STATE_BYTES], kept_out[MR74_OUT_BYTES];
static uint8_t out[MR74_OUT_BYTES], rows[MR74_ROWS_BYTES], places[MR74_PLACES_BYTES];

static uint32_t index_frame(size_t sheet_bytes, size_t energies_bytes)
{
    return mr74_frame_indexed(index_sheet, sheet_bytes, state, sizeof state, out, sizeof out, rows, sizeof rows, places, sizeof places,
                              log_table, sizeof log_table, pow_table, sizeof pow_table, energies, energies_bytes);
}

/* Keeps output and state as they are. */
static void keep(void)
{
    memcpy(kept_state, state, sizeof state);
    memcpy(kept_out, out, sizeof out);
}

/* Whether they still are, and the energies are these. */
static int kept(const int16_t *past)
{
    return memcmp(out, kept_out, sizeof out) == 0 && memcmp(state, kept_state, sizeof state) == 0 && are_numbers(energies, past, 4);
}

static const int16_t lsfs[10] = {1400, 2800, 4200, 5600, 7000, 8400, 9800, 11200, 12600, 14000}, pulse[1] = {2000};

static void index_frames(void)
{
    static const int16_t indices[8] = {4, 6, 18, 22, 121, 63, 92, 78}; /* pitch, then gains */
    static const int16_t samples[3] = {8, 6, -100}, after[4] = {9221, 7413, 12853, 5816};
    uint32_t code;

    open_state(state);
    put_numbers(index_sheet, lsfs, 10);
    put_numbers(index_sheet + 2 * 10, indices, 8);
    for (int k = 1; k < 4; k++) /* subframe 0 has no innovation, the others a pulse */
        put_numbers(index_sheet + 2 * (18 + 40 * k), pulse, 1);
    lend_tables();
    code = index_frame(sizeof index_sheet, sizeof energies);
    expect("an index sheet is accepted: a silent subframe, then samples", code == 0 && all_zero(out, 80) && are_numbers(out + 80, samples, 3));
    expect("its four subframes' energies are left, newest first", are_numbers(energies, after, 4));

    keep();
    pow_table[65] = 0; /* the last number of Pow2's table: 255 */
    expect("a table of Pow2 that falls is refused by number 7 at place 1", refused_at(index_frame(sizeof index_sheet, sizeof energies), 7, 1));
    put_numbers(pow_table, pow_numbers, 33);
    index_sheet[2 * 16] = 128; /* the gain index of subframe 2 */
    expect("a gain index of 128 is refused by number 8 at its subframe", refused_at(index_frame(sizeof index_sheet, sizeof energies), 8, 2));
    expect("a refused call leaves output, state and energies", kept(after));
    expect("and gives rows of zeros, and the place 40 four times", all_zero(rows, sizeof rows) && all_are(40, places, sizeof places));
    expect("an index sheet of 355 bytes is refused by number 1", index_frame(sizeof index_sheet - 1, sizeof energies) == 1);
    expect("energies of 7 bytes do not fit", index_frame(sizeof index_sheet, sizeof energies - 1) == MR74_UNFIT);
}

static uint32_t erased_frame(size_t sheet_bytes, size_t energies_bytes)
{
    return mr74_frame_erased(erased_sheet, sheet_bytes, state, sizeof state, out, sizeof out, rows, sizeof rows, places, sizeof places,
                             energies, energies_bytes);
}

/* After the frame of index_frames. */
static void erased_frames(void)
{
    static const int16_t stage[1] = {3}, lent[4] = {100, 200, 300, 400}, after[4] = {188, 190, 212, 250};
    static const int16_t samples[3] = {819, 460, -107}, last_lag[1] = {31}, mark[1] = {1};
    uint32_t code;

    put_numbers(erased_sheet, lsfs, 10);
    put_numbers(erased_sheet + 2 * 10, stage, 1);
    put_numbers(erased_sheet + 2 * 11, pulse, 1);
    put_numbers(energies, lent, 4);
    code = erased_frame(sizeof erased_sheet, sizeof energies);
    expect("an erased sheet is accepted: samples, and no subframe retried", code == 0 && are_numbers(out, samples, 3) && all_are(40, places, sizeof places));
    expect("the energies are left stepped four times, newest first", are_numbers(energies, after, 4));
    expect("the last lag has grown by 4, and the frame is marked as erased", are_numbers(state + 2 * 197, last_lag, 1) && are_numbers(state + 2 * 212, mark, 1));

    keep();
    erased_sheet[2 * 10] = 7;
    expect("an attenuation stage of 7 is refused by number 9 at place 0", erased_frame(sizeof erased_sheet, sizeof energies) == 9);
    expect("a refused call leaves output, state and energies, and gives rows of zeros", kept(after) && all_zero(rows, sizeof rows));
    expect("an erased sheet of 341 bytes is refused by number 1", erased_frame(sizeof erased_sheet - 1, sizeof energies) == 1);
    expect("energies of 7 bytes do not fit", erased_frame(sizeof erased_sheet, sizeof energies - 1) == MR74_UNFIT && kept(after));
    put_numbers(erased_sheet + 2 * 10, stage, 1);
    state[2 * 212] = 2;
    expect("an erased mark of 2 is refused by number 18 at its place", refused_at(erased_frame(sizeof erased_sheet, sizeof energies), 18, 212));
}

static uint8_t innovation[MR74_INNOVATION_BYTES], gains[MR74_GAINS_BYTES];

static uint32_t decode(int16_t index, size_t innovation_bytes, size_t log_table_bytes)
{
    return mr74_gain_decode(index, innovation, innovation_bytes, log_table, log_table_bytes, pow_table, sizeof pow_table, energies,
                            sizeof energies, gains, sizeof gains);
}

static void one_index(void)
{
    static const int16_t low_pulse[1] = {6}, decoded[2] = {10177, 28790}, after[4] = {-454, -14336, -14336, -14336};
    uint32_t code;

    put_numbers(innovation, low_pulse, 1);
    lend_tables();
    code = decode(40, sizeof innovation, sizeof log_table);
    expect("index 40 is decoded: pitch gain 10177, code gain 28790, its energy first", code == 0 && are_numbers(gains, decoded, 2) && are_numbers(energies, after, 4));
    code = decode(128, sizeof innovation, sizeof log_table);
    expect("index 128 is refused by number 8 at place 0: no gains, and the energies stay", code == 8 && all_zero(gains, sizeof gains) && are_numbers(energies, after, 4));
    code = decode(-1, sizeof innovation, sizeof log_table - 1);
    expect("a table of Log2 of 65 bytes is refused by number 7 at place 0, before index -1", code == 7);
    gains[0] = 0x5A;
    code = decode(40, sizeof innovation - 1, sizeof log_table);
    expect("an innovation of 79 bytes does not fit, and nothing is changed", code == MR74_UNFIT && gains[0] == 0x5A && are_numbers(energies, after, 4));
}

int main(void)
{
    records();
    frames();
    index_frames();
    erased_frames();
    one_index();
    printf("%d passed, %d failed\n", passed, failed);
    return failed != 0;
}
