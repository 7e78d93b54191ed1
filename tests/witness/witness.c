/* An outside witness: the stages that libopencore-amrnb.a exposes, run on the recorded answers of crates/replay/data, which are this decoder's too
   (crates/replay). For each file: records, how many agree, and how many of those that differ lie inside the ranges in which the library keeps
   the standard's clamps. Not part of the gate. Build where Debian's libopencore-amrnb-dev is installed:
       gcc -std=c11 -O2 -Wall -Wextra tests/witness/witness.c -l:libopencore-amrnb.a -lstdc++ -lm -o target/witness && target/witness crates/replay/data */
#include <stdint.h>
#include <stdio.h>
#include <stdlib.h>
#include <string.h>

typedef int16_t Word16;
typedef int32_t Word32;
typedef int32_t Flag;

extern void Lsf_lsp(Word16 lsf[], Word16 lsp[], Word16 m, Flag *overflow);
extern void Lsp_Az(Word16 lsp[], Word16 a[], Flag *overflow);
extern void Int_lpc_1to3(Word16 old[], Word16 new[], Word16 az[], Flag *overflow);
extern void Dec_lag3(Word16 index, Word16 min, Word16 max, Word16 subframe, Word16 previous, Word16 *lag, Word16 *thirds, Word16 flag4, Flag *overflow);
extern void Pred_lt_3or6(Word16 exc[], Word16 lag, Word16 fraction, Word16 count, Word16 flag3, Flag *overflow);
extern Word32 energy_new_Wrapper(Word16 in[], Word16 count, Flag *overflow);
extern Word32 Inv_sqrt(Word32 x, Flag *overflow);
extern void agc2(Word16 *in, Word16 *out, Word16 count, Flag *overflow);
extern void agc(Word16 *gain, Word16 *in, Word16 *out, Word16 factor, Word16 count, Flag *overflow);
extern void Syn_filt(Word16 a[], Word16 x[], Word16 y[], Word16 count, Word16 memory[], Word16 update);

/* past energies, newest first, of the modes up to 10.2 kbit/s and of 12.2 */
struct gc_pred_state {
    Word16 energies[4], energies_122[4];
};
extern const Word16 log2_tbl[33], pow2_tbl[33];
extern void Log2(Word32 x, Word16 *exponent, Word16 *fraction, Flag *overflow);
extern void get_const_tbls(void *tables);
extern void Dec_gain(struct gc_pred_state *state, int mode, Word16 index, Word16 code[], Word16 even, Word16 *pitch, Word16 *gain, void *tables, Flag *overflow);

static Word32 wide(const Word16 *w) { return (Word32)((uint32_t)(uint16_t)w[0] | (uint32_t)(uint16_t)w[1] << 16); }

static int same(const Word16 *a, const Word16 *b, int n) { return memcmp(a, b, 2 * (size_t)n) == 0; }

/* 1 where the library agrees with the record, 0 where not; *inside: the record lies in the range in which it keeps the standard's clamps */
static int lsp(const Word16 *r, int *inside)
{
    Word16 in[10], out[10];
    Flag o = 0;
    memcpy(in, r, 20);
    for (int i = 0; i < 10; i++)
        if (in[i] == 16384)
            *inside = 0; /* reads past its table, as the standard does */
    Lsf_lsp(in, out, 10, &o);
    return same(out, r + 10, 10);
}

/* ---- Get_lsp_pol and Lsp_Az of TS 26.073, to tell whether one of their steps clamps */
static int clamped;

static Word32 held(int64_t z)
{
    if (z < INT32_MIN || z > INT32_MAX) {
        clamped = 1;
        return z < 0 ? INT32_MIN : INT32_MAX;
    }
    return (Word32)z;
}

static Word32 mpy_32_16(Word32 x, Word16 n)
{
    int64_t high = x >> 16, low = (x >> 1) - (high << 15);
    return held((int64_t)held(2 * high * n) + 2 * ((low * n) >> 15));
}

static void polynomial(const Word16 *q, Word32 *f)
{
    f[0] = 1 << 24;
    f[1] = held(-(int64_t)1024 * q[0]);
    for (int i = 2; i <= 5; i++) {
        Word16 b = q[2 * (i - 1)];
        f[i] = f[i - 2];
        for (int j = i; j > 1; j--)
            f[j] = held((int64_t)held((int64_t)f[j] + (j > 1 ? f[j - 2] : 0)) - held(2 * (int64_t)mpy_32_16(f[j - 1], b)));
        f[1] = held((int64_t)f[1] - 1024 * b);
    }
}

/* no step clamps, and no coefficient leaves 16 bits */
static int plain(const Word16 *q)
{
    Word32 f[6], g[6];
    clamped = 0;
    polynomial(q, f);
    polynomial(q + 1, g);
    for (int i = 5; i > 0; i--) {
        f[i] = held((int64_t)f[i] + f[i - 1]);
        g[i] = held((int64_t)g[i] - g[i - 1]);
    }
    for (int i = 1; i <= 5; i++) {
        held((int64_t)f[i] + g[i]);
        held((int64_t)f[i] - g[i]);
    }
    return !clamped;
}

static int convert(const Word16 *r, int *inside)
{
    Word16 in[10], out[11];
    Flag o = 0;
    memcpy(in, r, 20);
    *inside = plain(in);
    Lsp_Az(in, out, &o);
    return same(out, r + 10, 11);
}

static int interpolate(const Word16 *r, int *inside)
{
    Word16 old[10], new[10], out[44];
    Flag o = 0;
    memcpy(old, r, 20);
    memcpy(new, r + 10, 20);
    *inside = 1;
    for (int k = 1; k < 4; k++) {
        Word16 q[10];
        for (int i = 0; i < 10; i++)
            q[i] = (Word16)(k == 2 ? (old[i] >> 1) + (new[i] >> 1) : k == 1 ? (new[i] >> 2) + (old[i] - (old[i] >> 2)) : (old[i] >> 2) + (new[i] - (new[i] >> 2)));
        *inside = *inside && plain(q);
    }
    *inside = *inside && plain(new);
    Int_lpc_1to3(old, new, out, &o);
    return same(out, r + 20, 44);
}

static int lag(const Word16 *r, int *inside)
{
    Word16 min, max, t, frac;
    Flag o = 0;
    (void)inside;
    min = (Word16)(r[2] - 5);
    if (min < 20)
        min = 20;
    max = (Word16)(min + 9);
    if (max > 143) {
        max = 143;
        min = 134;
    }
    Dec_lag3(r[1], min, max, r[0] ? 40 : 0, r[2], &t, &frac, 0, &o);
    return t == r[3] && frac == r[4];
}

static int predict(const Word16 *r, int *inside)
{
    Word16 exc[154 + 40];
    Flag o = 0;
    memcpy(exc, r, 308);
    memset(exc + 154, 0, 80);
    for (int i = 0; i < 154; i++)
        if (abs(r[i]) > 18000)
            *inside = 0; /* its sums are 32-bit and unclamped; the coefficients of a phase have magnitudes of at most 59398 in all */
    Pred_lt_3or6(exc + 154, r[154], r[155], 40, 1, &o);
    return same(exc + 154, r + 156, 40);
}

static int energy(const Word16 *r, int *inside)
{
    Word16 in[40];
    Flag o = 0;
    (void)inside;
    memcpy(in, r, 80);
    return energy_new_Wrapper(in, 40, &o) == wide(r + 40);
}

static int inverse_root(const Word16 *r, int *inside)
{
    Flag o = 0;
    (void)inside;
    return Inv_sqrt(wide(r), &o) == wide(r + 2);
}

static int match_energy(const Word16 *r, int *inside)
{
    Word16 in[40], out[40];
    Flag o = 0;
    (void)inside;
    memcpy(in, r, 80);
    memcpy(out, r + 40, 80);
    agc2(in, out, 40, &o);
    return same(out, r + 80, 40);
}

static int gain_control(const Word16 *r, int *inside)
{
    Word16 in[40], out[40], gain = r[0];
    Flag o = 0;
    memcpy(in, r + 1, 80);
    memcpy(out, r + 41, 80);
    for (int i = 81; i < 121; i++)
        if (r[i] == -32768 || r[i] == 32767)
            *inside = 0; /* a product leaves 16 bits: it does not clamp it */
    if (r[121] > 16384)
        *inside = 0; /* nor the gain that is aimed at */
    agc(&gain, in, out, 29491, 40, &o);
    return same(out, r + 81, 40) && gain == r[121];
}

static int synthesis(const Word16 *r, int *inside)
{
    Word16 a[11], x[40], y[40], memory[10];
    memcpy(a, r, 22);
    memcpy(memory, r + 11, 20);
    memcpy(x, r + 21, 80);
    *inside = r[101] == 40; /* no step clamps: it clamps only at the end */
    Syn_filt(a, x, y, 40, memory, 1);
    return same(y, r + 61, 40) && same(memory, r + 102, 10);
}

static int same_logarithm(Word32 a, Word32 b)
{
    Word16 exponent[2], fraction[2];
    Flag o = 0;
    Log2(a, &exponent[0], &fraction[0], &o);
    Log2(b, &exponent[1], &fraction[1], &o);
    return exponent[0] == exponent[1] && fraction[0] == fraction[1];
}

/* an index's gains and the energies after it: Dec_gain of MR74, with the table of gains, gc_pred by Log2, and Pow2 */
static void decode(const Word16 *r, Word16 *pitch, Word16 *gain, Word16 *energies)
{
    static void *tables[64]; /* the library's own structure of pointers, which has fewer */
    struct gc_pred_state state;
    Word16 code[40];
    Flag o = 0;
    get_const_tbls(tables);
    memset(&state, 0, sizeof state);
    memcpy(state.energies, r + 107, 8);
    memcpy(code, r + 1, 80);
    Dec_gain(&state, 4, r[0], code, 0, pitch, gain, tables, &o);
    memcpy(energies, state.energies, 8);
}

/* what comes from the row of the index alone: the pitch gain, and the energies after it */
static int row(const Word16 *r, int *inside)
{
    Word16 pitch, gain, energies[4];
    (void)inside;
    decode(r, &pitch, &gain, energies);
    return pitch == r[111] && same(energies, r + 113, 4);
}

static int gains(const Word16 *r, int *inside)
{
    Word16 pitch, gain, energies[4];
    int64_t energy = 0, shortened = 0;
    for (int i = 1; i <= 40; i++) {
        energy += 2 * (int64_t)r[i] * r[i];
        shortened += (int64_t)r[i] * r[i] >> 3 << 4;
    }
    if (energy > INT32_MAX || !same_logarithm((Word32)energy, (Word32)shortened))
        *inside = 0; /* it sums the squares without their low three bits, and wraps: where either shows in Log2 */
    if (!same(r + 41, log2_tbl, 33) || !same(r + 74, pow2_tbl, 33))
        *inside = 0; /* its tables are the standard's, and the record's are others */
    decode(r, &pitch, &gain, energies);
    return pitch == r[111] && gain == r[112] && same(energies, r + 113, 4);
}

static void run(const char *folder, const char *name, int words, int (*stage)(const Word16 *, int *))
{
    char path[512];
    Word16 r[512];
    int records = 0, agree = 0, differ_inside = 0, differ_outside = 0, in_range = 0;
    snprintf(path, sizeof path, "%s/%s", folder, name);
    FILE *f = fopen(path, "rb");
    if (!f) {
        printf("%s: missing\n", name);
        return;
    }
    while (fread(r, 2, (size_t)words, f) == (size_t)words) {
        int inside = 1, ok = stage(r, &inside);
        records++;
        in_range += inside;
        agree += ok;
        if (!ok && inside)
            differ_inside++;
        if (!ok && !inside)
            differ_outside++;
    }
    fclose(f);
    printf("%-18s %5d records, %5d agree; in the range: %5d, of which %d differ; outside it %d differ\n", name, records, agree, in_range, differ_inside, differ_outside);
}

int main(int argc, char **argv)
{
    const char *folder = argc > 1 ? argv[1] : "crates/replay/data";
    run(folder, "lsp.bin", 20, lsp);
    run(folder, "convert.bin", 21, convert);
    run(folder, "interpolate.bin", 64, interpolate);
    run(folder, "lag.bin", 5, lag);
    run(folder, "predict.bin", 196, predict);
    run(folder, "energy.bin", 42, energy);
    run(folder, "inverse_sqrt.bin", 4, inverse_root);
    run(folder, "match_energy.bin", 120, match_energy);
    run(folder, "gain_control.bin", 122, gain_control);
    run(folder, "synthesis.bin", 112, synthesis);
    run(folder, "gain_decode.bin", 117, row);
    run(folder, "gain_decode.bin", 117, gains);
    return 0;
}
