// The proved unit against the C version, built for the baseline target and for this machine, in one run.
// First all do the same random steps, the last version with the normal operand, and every answer and byte is compared; then forms of the instructions are timed, and mixed lists.
// The buffers start equal and are not cleared between the runs. Ratios are of medians of interleaved runs; below 1 the proved unit is faster.
#include <stdio.h>
#include <stdlib.h>
#include <string.h>
#include "draw.h"

typedef uint64_t step(uint8_t *state, uint64_t length, uint64_t instruction, uint64_t generation, uint64_t operand, uint64_t serial);
step unit_baseline, unit_native;

enum { VERSIONS = 3, RUNS = 61, RANDOM_STEPS = 1000000, MIXED = 4000, OFFSETS = 7 };
static step *const version[VERSIONS] = {amx_step, unit_baseline, unit_native};
static uint8_t state[VERSIONS][ROOM];

static void set(int at, uint8_t byte) {
    for (int v = 0; v < VERSIONS; v++) state[v][at] = byte;
}

// random bytes, or the bytes of numbers at the ends of their ranges
static void fill(int ends) {
    static const uint8_t end[8] = {0, 0, 1, 0x7f, 0x80, 0xfe, 0xff, 0xff};
    for (int i = 0; i < ROOM; i++) set(i, ends ? end[below(8)] : below(256));
}

// A float of so many fraction bits and exponent bits: exponents of zeros, subnormals, infinities and NaNs, those whose products overflow or become
// subnormal, and those that differ little; fractions at the ends of their range, or short ones, whose products are often ties.
static uint64_t special(int fractions, int exponents) {
    uint64_t last = (1ull << exponents) - 1, bias = last / 2, ones = (1ull << fractions) - 1, exponent, fraction = next() & ones;
    switch (below(10)) {
    case 0: exponent = 0; break;
    case 1: exponent = last; break;
    case 2: exponent = 1 + below(2); break;
    case 3: exponent = last - 1 - below(2); break;
    case 4: exponent = bias / 2 + below(fractions); break;
    case 5: exponent = bias + bias / 2 + below(4); break;
    case 6: exponent = below(last); break;
    default: exponent = bias + below(fractions + 3);
    }
    switch (below(6)) {
    case 0: fraction = 0; break;
    case 1: fraction = 1; break;
    case 2: fraction = ones; break;
    case 3: fraction = ones / 2 + 1; break;
    case 4: fraction &= ones << (fractions - below(2)) / 2; break;
    }
    return (below(2) << exponents | exponent) << fractions | fraction;
}

static void fill_special(int width) {
    fill(0);
    for (int at = 0; at < AMX_COUNT_AT; at += width) {
        uint64_t lane = width == 4 ? special(23, 8) : special(52, 11);
        for (int i = 0; i < width; i++) set(at + i, lane >> 8 * i);
    }
}

static void fill_normal(void) {
    for (int i = 0; i < AMX_COUNT_AT; i++) set(i, normal_byte());
}

static void set_count(uint64_t count) {
    for (int v = 0; v < VERSIONS; v++) memcpy(state[v] + AMX_COUNT_AT, &count, sizeof count);
}

static int is_float(struct call c) { return c.instruction == AMX_VECFP || c.instruction == AMX_FMS64; }

static int indexed(struct call c) { return c.instruction == AMX_VECINT && c.operand >> 53 & 1; }

static uint64_t count_of(int v) {
    uint64_t count;
    memcpy(&count, state[v] + AMX_COUNT_AT, sizeof count);
    return count;
}

// the serial due, and now and then another: an old one, a future one, one that differs in a bit, an end of their range, or any
static uint64_t draw_serial(uint64_t count) {
    if (below(64)) return count;
    switch (below(8)) {
    case 0: return count - 1;
    case 1: return count + 1;
    case 2: return count - below(1000);
    case 3: return count + below(1000);
    case 4: return count ^ 1ull << below(64);
    case 5: return 0;
    case 6: return UINT64_MAX;
    default: return next();
    }
}

static uint64_t run(int v, struct call c, uint64_t serial) { return version[v](state[v], c.length, c.instruction, c.generation, c.operand, serial); }

static void differ(const char *what, int n, struct call c, uint64_t count, uint64_t serial) {
    fprintf(stderr, "%s at step %d: length %llu, instruction %llu, generation %llu, operand %016llx, count %llu, serial %llu\n", what, n,
            (unsigned long long)c.length, (unsigned long long)c.instruction, (unsigned long long)c.generation, (unsigned long long)c.operand,
            (unsigned long long)count, (unsigned long long)serial);
    exit(1);
}

static void compare(void) {
    int done = 0, floats = 0, no_op[4] = {0}, refused[10] = {0};
    for (int n = 0; n < RANDOM_STEPS; n++) {
        if (n % 64 == 0) {
            if (n / 64 % 4 < 2) fill(n / 64 % 2);
            else fill_special(n / 64 % 2 ? 8 : 4);
            if (below(64) == 0) set_count(UINT64_MAX - below(64));
            else if (below(4) == 0) set_count(0);
        }
        struct call c = draw(1, 2), normal = c;
        normal.operand = amx_normal_operand(c.instruction, c.generation, c.operand);
        uint64_t count = count_of(0), serial = draw_serial(count), answer = run(0, c, serial);
        for (int v = 1; v < VERSIONS; v++)
            if (run(v, v + 1 < VERSIONS ? c : normal, serial) != answer || memcmp(state[v], state[0], ROOM)) differ("the versions differ", n, c, count, serial);
        uint64_t asked = amx_normal_answer(c.instruction, c.generation, c.operand);
        int of_call = c.length == LENGTH && answer != AMX_REFUSED_SERIAL && answer != AMX_REFUSED_LAST_COUNT;
        if (of_call && asked != (AMX_IS_DONE(answer) ? 0 : answer)) differ("the normal operand is answered otherwise", n, c, count, serial);
        if (normal.operand != amx_normal_operand(c.instruction, c.generation, normal.operand)) differ("the normal operand is not normal", n, c, count, serial);
        floats += AMX_IS_DONE(answer) && is_float(c);
        if (AMX_IS_DONE(answer)) done++;
        else if (AMX_IS_NO_OP(answer)) no_op[answer - AMX_NO_OP]++;
        else refused[answer - AMX_REFUSED]++;
    }
    printf("%d random steps: same bytes, same answers\ndone %d, of these %d of vecfp and fms64", RANDOM_STEPS, done, floats);
    for (int i = 1; i < 4; i++) printf(", no-op %d: %d", i, no_op[i]);
    static const int refusal[] = {1, 2, 3, 4, 8, 9};
    for (int i = 0; i < 6; i++) printf(", refused %d: %d", refusal[i], refused[refusal[i]]);
    printf("\n");
}

static int order(const void *a, const void *b) {
    double x = *(const double *)a, y = *(const double *)b;
    return (x > y) - (x < y);
}

// a list of steps that are done, so that each raises the count
static void measure(const char *form, const struct call *list, int length, int times) {
    static double time[VERSIONS][RUNS];
    for (int r = 0; r < RUNS; r++)
        for (int v = 0; v < VERSIONS; v++) {
            uint64_t serial = count_of(v);
            double start = seconds();
            for (int t = 0; t < times; t++)
                for (int n = 0; n < length; n++) run(v, list[n], serial++);
            time[v][r] = seconds() - start;
            if (count_of(v) != serial) {
                fprintf(stderr, "%s: a step was refused\n", form);
                exit(1);
            }
        }
    for (int v = 0; v < VERSIONS; v++) qsort(time[v], RUNS, sizeof(double), order);
    double proved = time[0][RUNS / 2];
    printf("%-30s %5.0f ns a step   ratio to C, baseline target: %.2f   native: %.2f\n", form, proved / times / length * 1e9, proved / time[1][RUNS / 2], proved / time[2][RUNS / 2]);
}

// one operand, at several X offsets
static void one(const char *form, uint64_t instruction, uint64_t operand, int times) {
    struct call list[OFFSETS];
    for (int n = 0; n < OFFSETS; n++) list[n] = (struct call){LENGTH, instruction, 2, put(operand, 10, 18, 3 * n)};
    measure(form, list, OFFSETS, times);
}

static uint64_t vec(uint64_t mode, uint64_t width) { return 1ull << 63 | mode << 47 | width << 42 | 1ull << 26; }

// X or Y by indices of 4 bits into its register 3
static uint64_t vec_indexed(uint64_t y, uint64_t width) { return vec(0, width) | 1ull << 53 | 3ull << 49 | 1ull << 48 | y << 47; }

// done steps without an indexed load, or with one in each; half of them of vecfp and fms64, or none
static void mixed(const char *form, unsigned loads, int floats) {
    static struct call list[MIXED];
    for (int n = 0; n < MIXED;) {
        list[n] = draw(loads, floats ? 2 : 0);
        if (indexed(list[n]) == (loads > 0) && AMX_IS_DONE(run(1, list[n], count_of(1))) && (floats || !is_float(list[n]))) n++;
    }
    if (floats) fill_normal();
    else fill(0);
    measure(form, list, MIXED, 1);
}

// the rows of Z anew, since a sum of the last form's would leave the normal floats of another width
static void one_float(const char *form, uint64_t instruction, uint64_t operand, int times) {
    fill_normal();
    one(form, instruction, operand, times);
}

static void vecfp(const char *lanes, uint64_t width) {
    static const uint64_t mode[] = {10, 11, 12, 4};
    for (int i = 0; i < 4; i++) {
        char form[32];
        snprintf(form, sizeof form, "vecfp, %s, mode %d", lanes, (int)mode[i]);
        one_float(form, AMX_VECFP, mode[i] << 47 | width << 42, 6000);
    }
}

int main(void) {
    compare();
    fill(0);
    one("mac16, matrix 16", AMX_MAC16, 0, 600);
    one("mac16, matrix 32", AMX_MAC16, 1ull << 62, 300);
    one("mac16, vector", AMX_MAC16, 1ull << 63, 6000);
    one("vecint, 16 16 16", AMX_VECINT, vec(0, 0), 6000);
    one("vecint, 16 16 32", AMX_VECINT, vec(0, 3), 6000);
    one("vecint, 8 8 32", AMX_VECINT, vec(0, 10), 3000);
    one("vecint, 8 8 16", AMX_VECINT, vec(0, 11), 3000);
    one("vecint, 8 16 32", AMX_VECINT, vec(0, 12), 3000);
    one("vecint, 16 16 16, first 5", AMX_VECINT, vec(0, 0) | 2ull << 38 | 5ull << 32, 6000);
    one("vecint, 8 8 32, first 5", AMX_VECINT, vec(0, 10) | 2ull << 38 | 5ull << 32, 3000);
    one("vecint, 8 16 32, odd lanes", AMX_VECINT, vec(0, 12) | 1ull << 32, 3000);
    one("vecint, 16 16 16, four vectors", AMX_VECINT, vec(0, 0) | 1ull << 31 | 1ull << 25, 2000);
    one("vecint, reducing 32 to 16", AMX_VECINT, vec(4, 3) | 7ull << 58 | 3ull << 29, 6000);
    one("vecint, reducing 32 to 32", AMX_VECINT, vec(4, 4) | 7ull << 58 | 3ull << 29, 6000);
    one("vecint, reducing 8 to 8", AMX_VECINT, vec(4, 9) | 7ull << 58 | 3ull << 29, 6000);
    one("vecint, reducing 16 to 16", AMX_VECINT, vec(4, 0) | 7ull << 58 | 3ull << 29, 6000);
    one("vecint, mode 5", AMX_VECINT, vec(5, 0), 6000);
    mixed("both, 4,000 mixed steps", 0, 0);
    one("vecint, 16 16 16, indexed X", AMX_VECINT, vec_indexed(0, 0), 6000);
    one("vecint, 8 8 32, indexed Y", AMX_VECINT, vec_indexed(1, 10), 3000);
    mixed("vecint, 4,000 indexed steps", 4, 0);
    vecfp("single", 4);
    vecfp("double", 7);
    one_float("fms64, vector, z - x", AMX_FMS64, 1ull << 63 | 1ull << 28, 6000);
    one_float("fms64, matrix, z - x", AMX_FMS64, 1ull << 28, 1500);
    mixed("all four, 4,000 mixed steps", 0, 1);
}
