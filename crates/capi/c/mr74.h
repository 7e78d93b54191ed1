/* The frame calls, the call of a gain index, the reader and the writer of MR74 (crates/capi, libcapi.a).
 *
 * Numbers of 16 bits are two bytes each, two's complement, low byte first. A buffer is a pointer, which is not null, and its
 * length in bytes. A buffer that a call writes (one without const, and *note) overlaps no other one of the call; two that it
 * only reads may overlap. A state is the 426 bytes of the body of a version 2 record.
 *
 * A call returns number + 256 * place: the refusal's number, 0 where the call was accepted, and the refusal's place, 0 where
 * its line below names none (it is none of the four in places). It returns MR74_UNFIT, and changes nothing, where state,
 * rows, places, energies, innovation or gains has another length than its own; that is tested before any refusal.
 *
 *  1  the sheet has another length
 *  2  an LSF is outside 0 to 16384; place 0 to 9
 *  3  a pitch index is outside 0 to 255 in subframes 0 and 2, outside 0 to 31 in 1 and 3; place 0 to 3
 *  4  a gain is negative; place 0 to 7
 *  5  the output, or the writer's record, has another length
 *  6  an LSF is less than 205 above the one before, the first below 205; place 0 to 9
 *  7  a table has another length, or numbers that are negative or fall; place 0 Log2's, 1 Pow2's
 *  8  a gain index is outside 0 to 127; place 0 to 3, its subframe, 0 of mr74_gain_decode
 *  9  the attenuation stage is outside 0 to 6
 * 11  the record has fewer than 8 bytes
 * 12  its tag differs
 * 13  its version is neither 1 nor 2
 * 14  its distance or its count is not its version's
 * 15  it has fewer bytes before its trailer than its distance, 394 in version 1 and 426 in version 2
 * 16  the state's sharpening is outside 0 to 13017
 * 17  its smoothed gain is negative
 * 18  a gain, 198 to 211 of its numbers from 0 on, is negative, or its erased mark, 212, is neither 0 nor 1; place 198 to 212
 * 19  its last lag, 197, is outside 19 to 144; place 197
 *
 * The first that is met is returned, at the first place where it is met. The order is 1, 5, 2, 6, then 3 and 4 of a frame sheet,
 * 3, 7 and 8 of an index sheet, 9 of an erased sheet, then 16 to 19; of mr74_gain_decode 7, 8; of the reader 11 to 19; of the
 * writer 5, 16 to 19. */
#ifndef MR74_H
#define MR74_H

#include <stddef.h>
#include <stdint.h>

#ifdef __cplusplus
extern "C" {
#endif

#define MR74_SHEET_BYTES 364
#define MR74_INDEX_SHEET_BYTES 356
#define MR74_ERASED_SHEET_BYTES 342
#define MR74_STATE_BYTES 426
#define MR74_OUT_BYTES 320
#define MR74_ROWS_BYTES 88
#define MR74_PLACES_BYTES 4
#define MR74_TABLE_BYTES 66
#define MR74_ENERGIES_BYTES 8
#define MR74_INNOVATION_BYTES 80
#define MR74_GAINS_BYTES 4
#define MR74_RECORD_BYTES 434
#define MR74_FIRST_RECORD_BYTES 402
#define MR74_UNFIT 255u

#define MR74_NUMBER(code) ((code) & 255u)
#define MR74_PLACE(code) ((code) >> 8)

/* Decodes a frame. Accepted: 160 samples in out, the next state in state, four rows of eleven in rows, the four places in
 * places, a byte each: the first sample, 0 to 39, at which a step of the subframe's first pass clamped, 40 where none did
 * (the subframe was retried exactly where it is not 40). Refused: out and state stay as they are, rows are 0, places 40. */
uint32_t mr74_frame(const uint8_t *sheet, size_t sheet_bytes, uint8_t *state, size_t state_bytes, uint8_t *out,
                    size_t out_bytes, uint8_t *rows, size_t rows_bytes, uint8_t *places, size_t places_bytes);

/* Decodes a frame of an index sheet: ten LSFs, four pitch indices, four gain indices, 160 innovation numbers. A table is 33
 * numbers from 0 to 32767 that never fall: Log2's in log_table, Pow2's in pow_table. The energies are the four past ones, newest
 * first; -14336 four times where nothing was decoded before. Accepted: the frame as mr74_frame gives it, and the subframes'
 * energies in energies. Refused: as mr74_frame, and energies stay as they are. */
uint32_t mr74_frame_indexed(const uint8_t *sheet, size_t sheet_bytes, uint8_t *state, size_t state_bytes, uint8_t *out,
                            size_t out_bytes, uint8_t *rows, size_t rows_bytes, uint8_t *places, size_t places_bytes,
                            const uint8_t *log_table, size_t log_table_bytes, const uint8_t *pow_table, size_t pow_table_bytes,
                            uint8_t *energies, size_t energies_bytes);

/* Decodes an erased frame. Its sheet has ten LSFs, the attenuation stage, 0 to 6, and 160 innovation numbers; lags and gains are
 * made from the state. The energies are as in mr74_frame_indexed. Accepted: the frame as mr74_frame gives it, and in energies
 * those after it, stepped once a subframe; the next state's erased mark is 1. Refused: as mr74_frame, and energies stay as they
 * are. */
uint32_t mr74_frame_erased(const uint8_t *sheet, size_t sheet_bytes, uint8_t *state, size_t state_bytes, uint8_t *out,
                           size_t out_bytes, uint8_t *rows, size_t rows_bytes, uint8_t *places, size_t places_bytes,
                           uint8_t *energies, size_t energies_bytes);

/* Decodes the gains of one index, 0 to 127, of its subframe's forty sharpened innovation numbers. Accepted: pitch gain and code
 * gain in gains; in energies its row's energy first, the oldest has left. Refused: gains are 0, energies stay as they are. */
uint32_t mr74_gain_decode(int16_t index, const uint8_t *innovation, size_t innovation_bytes, const uint8_t *log_table,
                          size_t log_table_bytes, const uint8_t *pow_table, size_t pow_table_bytes, uint8_t *energies,
                          size_t energies_bytes, uint8_t *gains, size_t gains_bytes);

/* Reads a record of version 2, or of version 1, whose state gets last lag 40 and zeros in the other fields that it has not.
 * Accepted: its state in state; the note is the first *note bytes of the record. Refused: state is all zero, *note is 0. note is
 * not null. */
uint32_t mr74_read(const uint8_t *record, size_t record_bytes, uint8_t *state, size_t state_bytes, size_t *note);

/* Writes the record of a state, of version 2: 434 bytes without a note. Refused: record stays as it is. */
uint32_t mr74_write(const uint8_t *state, size_t state_bytes, uint8_t *record, size_t record_bytes);

#ifdef __cplusplus
}
#endif

#endif
