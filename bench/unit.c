// The step written from the papers, apart from the proved code: what the benchmark compares with.
// Built once for the baseline target and once for this machine, under the name that NAME gives. Lanes and the count are the machine's own, little-endian.
#include <stdbool.h>
#include <stdint.h>
#include <string.h>
#include "../include/amx.h"

static unsigned field(uint64_t op, int first, int last) { return op >> first & ((2ull << (last - first)) - 1); }

static bool bit(uint64_t op, int n) { return op >> n & 1; }

static bool enabled(unsigned mode, unsigned n, unsigned i) {
    switch (mode) {
    case 0: return n == 0 ? true : n == 1 ? i & 1 : n == 2 ? !(i & 1) : false;
    case 1: return i == n;
    case 2: return n == 0 || i < n;
    default: return n == 0 || i + n >= 32;
    }
}

// 64 bytes round a ring of 512.
static void load(uint8_t *to, const uint8_t *ring, unsigned offset) {
    unsigned straight = offset <= 448 ? 64 : 512 - offset;
    memcpy(to, ring + offset, straight);
    memcpy(to + straight, ring, 64 - straight);
}

static void lanes(int16_t *to, const uint8_t *bytes, bool i8) {
    for (int i = 0; i < 32; i++) {
        int16_t lane;
        memcpy(&lane, bytes + 2 * i, 2);
        to[i] = i8 ? (int8_t)lane : lane;
    }
}

// mask and keep are all ones or all zeros
static inline void row16(uint8_t *restrict z, const int16_t *restrict x, const int16_t *restrict mask, const int16_t *restrict y, int shift, int16_t keep) {
    int16_t old[32];
    memcpy(old, z, 64);
    for (int i = 0; i < 32; i++) {
        int16_t sum = (keep & old[i]) + (int16_t)((int32_t)x[i] * y[i] >> shift);
        old[i] = (sum & mask[i]) | (old[i] & ~mask[i]);
    }
    memcpy(z, old, 64);
}

static void row32(uint8_t *restrict z, const int16_t *restrict x, const int32_t *restrict mask, int16_t y, int shift, int32_t keep) {
    int32_t old[16];
    memcpy(old, z, 64);
#pragma GCC unroll 1 // unrolled, gcc does one lane at a time
    for (int l = 0; l < 16; l++) {
        int32_t sum = (uint32_t)(keep & old[l]) + (uint32_t)((int32_t)x[l] * y >> shift);
        old[l] = (sum & mask[l]) | (old[l] & ~mask[l]);
    }
    memcpy(z, old, 64);
}

static uint64_t mac16(uint8_t *state, uint64_t op) {
    uint8_t xbytes[64], ybytes[64];
    load(xbytes, state, field(op, 10, 18));
    load(ybytes, state + 512, field(op, 0, 8));
    int16_t x[32], y[32], mask[32];
    bool yon[32];
    lanes(x, xbytes, bit(op, 61));
    lanes(y, ybytes, bit(op, 60));
    bool skipx = bit(op, 29), skipy = bit(op, 28);
    uint64_t nx = 0, ny = 0;
    for (int i = 0; i < 32; i++) {
        x[i] = skipx ? !skipy : x[i];
        y[i] = skipy ? 1 : y[i];
    }
    for (int i = 0; i < 32; i++) {
        bool xon = enabled(field(op, 46, 47), field(op, 41, 45), i);
        yon[i] = enabled(field(op, 37, 38), field(op, 32, 36), i);
        mask[i] = -xon;
        nx += xon;
        ny += yon[i];
    }
    int shift = field(op, 55, 59);
    int16_t keep = bit(op, 27) ? 0 : -1;
    uint8_t *z = state + 1024;
    if (bit(op, 63)) {
        row16(z + 64 * field(op, 20, 25), x, mask, y, shift, keep);
        return 2 * nx;
    }
    if (bit(op, 62)) {
        int16_t xs[2][16];
        int32_t masks[2][16];
        for (int i = 0; i < 32; i++) {
            xs[i % 2][i / 2] = x[i];
            masks[i % 2][i / 2] = mask[i];
        }
        for (int j = 0; j < 32; j++)
            for (int p = 0; yon[j] && p < 2; p++) row32(z + 64 * (2 * j + p), xs[p], masks[p], y[j], shift, keep);
        return 4 * nx * ny;
    }
    for (int j = 0; j < 32; j++) {
        if (!yon[j]) continue;
        int16_t same[32];
        for (int i = 0; i < 32; i++) same[i] = y[j];
        row16(z + 64 * (2 * j + field(op, 20, 20)), x, mask, same, shift, keep);
    }
    return 2 * nx * ny;
}

enum { ROUND = 1 << 14 };

// what an operand of vecint or vecfp says; widths in bytes. Shifts, saturation, signs and indices are vecint's.
struct vec {
    unsigned mode, shift;
    int x, y, z, saturation;    // lane widths
    int lanes, rows;            // of a vector: lanes at the narrower of X and Y, and the rows that they are dealt to
    int stride, row;            // the rows from one vector to the next, and the first vector's row
    unsigned xstep, ystep;      // bytes from one vector to the next
    int xlane, ylane;           // the lane used for every lane, or -1
    bool xzero, yzero, force;   // X or Y read as 0, output 0
    bool xsigned, ysigned;
    uint8_t xindex, yindex;     // the bits of an index, or 0 where the load is not an indexed one
    uint8_t from;               // the register that indices choose from
};

static void widths(struct vec *v, unsigned number) {
    static const uint8_t xyz[16][3] = {[3] = {2, 2, 4}, [10] = {1, 1, 4}, [11] = {1, 1, 2}, [12] = {1, 2, 4}, [13] = {2, 1, 4}};
    static const uint8_t reduction[16][2] = {[3] = {4, 2}, [4] = {4, 4}, [9] = {1, 1}, [10] = {4, 1}, [11] = {2, 1}};
    v->x = v->y = v->z = v->saturation = 2;
    if (v->mode == 4) {
        if (reduction[number][0]) v->z = reduction[number][0], v->saturation = reduction[number][1];
        v->lanes = 64 / v->z;
        v->rows = 1;
        return;
    }
    if (xyz[number][0] && v->mode != 5 && v->mode != 6) v->x = xyz[number][0], v->y = xyz[number][1], v->z = xyz[number][2];
    int narrower = v->x < v->y ? v->x : v->y;
    v->lanes = 64 / narrower;
    v->rows = v->z / narrower;
}

// The rows and sides of the vectors, whose widths and steps are set; n is the enable value.
static inline void vectors(struct vec *v, uint64_t op, bool several, unsigned n) {
    unsigned enable = field(op, 38, 40);
    v->stride = !several ? 64 : bit(op, 25) ? 16 : 32;
    v->row = (field(op, 20, 25) & (v->stride - 1)) & -v->rows;
    v->xlane = v->ylane = -1;
    if (several) {
        unsigned broadcast = n & 7;
        v->force = broadcast == 1;
        v->xzero = broadcast == 4;
        v->yzero = broadcast == 5;
        if (broadcast == 2 || broadcast == 6) v->xstep = 0;
        if (broadcast == 3 || broadcast == 7) v->ystep = 0;
        if (broadcast == 6) v->xlane = 0;
        if (broadcast == 7) v->ylane = 0;
    } else if (enable == 0) {
        v->force = n == 3;
        v->xzero = n == 4;
        v->yzero = n == 5;
    } else if (enable == 1) v->ylane = n % (64 / v->y);
}

static struct vec decode(uint64_t op, unsigned mode, bool several) {
    struct vec v = {.mode = mode, .shift = field(op, 58, 62), .xstep = 64, .ystep = 64, .xsigned = bit(op, 63), .ysigned = bit(op, 26)};
    widths(&v, field(op, 42, 45));
    if (bit(op, 53)) {
        int bits = bit(op, 48) ? 4 : 2;
        v.from = field(op, 49, 51);
        if (bit(op, 47)) v.yindex = bits, v.ystep = 8 * bits / v.y;
        else v.xindex = bits, v.xstep = 8 * bits / v.x;
    }
    vectors(&v, op, several, field(op, 32, 37));
    return v;
}

// The lanes of a mask that are on: those from `from` to before `to`, without the even (0) or odd (1) ones.
static inline void enabled_range(unsigned enable, int n, int count, int *from, int *to, int *skipped) {
    *from = 0, *to = count, *skipped = 2;
    if (n > count) n = count;
    if (enable == 0 && n == 1) *skipped = 0;
    else if (enable == 0 && n == 2) *skipped = 1;
    else if (enable > 5 || (enable == 0 && n > 5)) *to = 0;
    else if (enable == 4 || (enable == 2 && n)) *to = n;
    else if (enable == 5 || (enable == 3 && n)) *from = count - n;
}

// The mask of a vector's lanes, all ones or all zeros: count of them at the mask's own width, each used for `times` lanes. Returns how many are on.
static int lane_mask(int32_t *mask, unsigned enable, int n, int count, int times) {
    int from, to, skipped, on = 0;
    enabled_range(enable, n, count, &from, &to, &skipped);
    for (int k = 0; k < count * times; k++) {
        int i = times == 2 ? k / 2 : k;
        mask[k] = -(i >= from && i < to && (i & 1) != skipped);
        on -= mask[k];
    }
    return on;
}

// The mask at a second lane width, of count lanes: a lane is on where both masks have it.
static int also_masked(int32_t *mask, unsigned enable, int n, int count, int lanes) {
    int32_t second[64];
    lane_mask(second, enable, n, count, lanes / count);
    int on = 0;
    for (int k = 0; k < lanes; k++) {
        mask[k] &= second[k];
        on -= mask[k];
    }
    return on;
}

// Each element becomes the one of a register that its index names. The indices are packed, lowest bits first.
static inline void pick(uint8_t *bytes, const uint8_t *restrict from, int index, int width) {
    uint64_t packed[4];
    uint8_t picked[64];
    memcpy(packed, bytes, sizeof packed);
    for (int k = 0; k < 64 / width; k++) {
        unsigned n = packed[k * index / 64] >> k * index % 64 & ((1 << index) - 1);
        memcpy(picked + width * k, from + width * n, width);
    }
    memcpy(bytes, picked, sizeof picked);
}

// A vector's 64 bytes of X or Y.
static void load_side(uint8_t *to, const uint8_t *ring, unsigned offset, int index, unsigned from, int width) {
    load(to, ring, offset & 511);
    ring += 64 * from;
    if (index == 4 && width == 1) pick(to, ring, 4, 1);
    else if (index == 4) pick(to, ring, 4, 2);
    else if (index == 2 && width == 1) pick(to, ring, 2, 1);
    else if (index == 2) pick(to, ring, 2, 2);
}

// The numbers that a vector's lanes take from 64 bytes of X or Y.
static void numbers(int32_t *restrict to, const uint8_t *bytes, int width, bool sign, int lanes, int only) {
    int32_t lane[64];
    int count = 64 / width;
    if (width == 1 && sign)
        for (int i = 0; i < 64; i++) lane[i] = (int8_t)bytes[i];
    else if (width == 1)
        for (int i = 0; i < 64; i++) lane[i] = bytes[i];
    else {
        int16_t half[32];
        memcpy(half, bytes, 64);
        for (int i = 0; i < 32; i++) lane[i] = sign ? half[i] : (uint16_t)half[i];
    }
    if (only >= 0)
        for (int k = 0; k < lanes; k++) to[k] = lane[only];
    else if (lanes == count) memcpy(to, lane, lanes * sizeof *to);
    else
        for (int k = 0; k < lanes; k++) to[k] = lane[k / 2];
}

// The products of two 16-bit numbers fill 32 bits, signed unless both numbers are unsigned.
static void products(int32_t *restrict to, const int32_t *restrict x, const int32_t *restrict y, int n, int32_t round, unsigned s, bool positive) {
    if (positive)
        for (int k = 0; k < n; k++) to[k] = ((uint32_t)x[k] * (uint32_t)y[k] + round) >> s;
    else
        for (int k = 0; k < n; k++) to[k] = (x[k] * y[k] + round) >> s;
}

// What is added to Z or stored there, modulo 2^32.
static void terms(int32_t *restrict to, const int32_t *restrict x, const int32_t *restrict y, const struct vec *v) {
    int n = v->lanes;
    unsigned s = v->shift;
    bool positive = !v->xsigned && !v->ysigned;
    switch (v->mode) {
    case 0: case 1: case 10: products(to, x, y, n, 0, s, positive); break;
    case 5: case 6: products(to, x, y, n, ROUND, 15, positive); break;
    case 2: case 3:
        for (int k = 0; k < n; k++) to[k] = (x[k] + y[k]) >> s;
        break;
    case 11:
        for (int k = 0; k < n; k++) to[k] = x[k] >> s;
        break;
    default:
        for (int k = 0; k < n; k++) to[k] = y[k] >> s;
    }
    if (v->mode == 1 || v->mode == 3 || v->mode == 6)
        for (int k = 0; k < n; k++) to[k] = 0u - to[k];
}

// A row of Z, whose lanes take every `rows`th term.
static inline void add32(uint8_t *restrict z, const int32_t *restrict term, const int32_t *restrict mask, int rows, int32_t keep) {
    int32_t old[16];
    memcpy(old, z, 64);
    for (int l = 0; l < 16; l++) {
        int32_t sum = (uint32_t)(keep & old[l]) + (uint32_t)term[l * rows];
        old[l] = (sum & mask[l * rows]) | (old[l] & ~mask[l * rows]);
    }
    memcpy(z, old, 64);
}

static inline void add16(uint8_t *restrict z, const int32_t *restrict term, const int32_t *restrict mask, int rows, int32_t keep, bool clamps) {
    int16_t old[32];
    memcpy(old, z, 64);
    for (int l = 0; l < 32; l++) {
        int32_t sum = (uint32_t)(keep & old[l]) + (uint32_t)term[l * rows];
        if (clamps) sum = sum < -32768 ? -32768 : sum > 32767 ? 32767 : sum;
        old[l] = (sum & mask[l * rows]) | (old[l] & ~mask[l * rows]);
    }
    memcpy(z, old, 64);
}

static void add(uint8_t *z, const int32_t *term, const int32_t *mask, const struct vec *v) {
    int32_t keep = v->mode == 10 || v->force ? 0 : -1;
    if (v->mode == 5 || v->mode == 6) add16(z, term, mask, 1, keep, true);
    else if (v->rows == 1) add16(z, term, mask, 1, keep, false);
    else if (v->z == 2)
        for (int q = 0; q < 2; q++) add16(z + 64 * q, term + q, mask + q, 2, keep, false);
    else if (v->rows == 2)
        for (int q = 0; q < 2; q++) add32(z + 64 * q, term + q, mask + q, 2, keep);
    else
        for (int q = 0; q < 4; q++) add32(z + 64 * q, term + q, mask + q, 4, keep);
}

// ALU mode 4 on a row of Z. Numbers of up to 16 bits, with what rounding adds, fit an int32_t.
#define REDUCE(BITS, NUMBER) \
    static void reduce##BITS(uint8_t *restrict z, const int32_t *restrict mask, uint64_t op, const struct vec *v) { \
        enum { LANES = 512 / BITS }; \
        uint##BITS##_t old[LANES]; \
        NUMBER new[LANES], round = bit(op, 29) && v->shift ? 1u << (v->shift - 1) : 0; \
        memcpy(old, z, 64); \
        for (int i = 0; i < LANES; i++) new[i] = ((v->xsigned ? (NUMBER)(int##BITS##_t)old[i] : (NUMBER)old[i]) + round) >> v->shift; \
        if (bit(op, 30)) { \
            int64_t span = 1ll << 8 * v->saturation; \
            NUMBER low = v->ysigned ? -(span / 2) : 0, high = v->ysigned ? span / 2 - 1 : span - 1; \
            for (int i = 0; i < LANES; i++) new[i] = new[i] < low ? low : new[i] > high ? high : new[i]; \
        } \
        if (v->force) memset(new, 0, sizeof new); \
        for (int i = 0; i < LANES; i++) old[i] = (new[i] & mask[i]) | (old[i] & ~mask[i]); \
        memcpy(z, old, 64); \
    }
REDUCE(8, int32_t)
REDUCE(16, int32_t)
REDUCE(32, int64_t)

static uint64_t vecint(uint8_t *state, unsigned generation, uint64_t op) {
    if (field(op, 54, 56)) return AMX_NO_OP_RESERVED_BITS;
    unsigned mode = bit(op, 53) ? 0 : field(op, 47, 52);
    if ((mode >= 7 && mode <= 9) || mode > 12) return AMX_NO_OP_RESERVED_MODE;
    if (mode >= 10 && generation == AMX_M1) return AMX_NO_OP_LATER_MODE;
    if (mode != 4 && field(op, 27, 30)) return AMX_REFUSED_NOT_COVERED;
    bool several = generation == AMX_M2 && bit(op, 31);
    struct vec v = decode(op, mode, several);
    int32_t x[64], y[64], term[64], mask[64];
    unsigned enable = several ? 1 : field(op, 38, 40), value = field(op, 32, 37);
    int count = mode == 4 ? v.lanes : 64 / v.x;
    int on = lane_mask(mask, enable, value, count, v.lanes / count);
    if (v.x != v.y) on = also_masked(mask, enable, value, 64 / v.y, v.lanes);
    unsigned xoffset = field(op, 10, 18), yoffset = field(op, 0, 8);
    for (int row = v.row; row < 64; row += v.stride, xoffset += v.xstep, yoffset += v.ystep) {
        uint8_t *z = state + 1024 + 64 * row;
        if (mode == 4) {
            (v.z == 1 ? reduce8 : v.z == 2 ? reduce16 : reduce32)(z, mask, op, &v);
            continue;
        }
        uint8_t xbytes[64] = {0}, ybytes[64] = {0};
        if (!v.xzero) load_side(xbytes, state, xoffset, v.xindex, v.from, v.x);
        if (!v.yzero) load_side(ybytes, state + 512, yoffset, v.yindex, v.from, v.y);
        numbers(x, xbytes, v.x, v.xsigned, v.lanes, v.xlane);
        numbers(y, ybytes, v.y, v.ysigned, v.lanes, v.ylane);
        if (v.force) memset(term, 0, sizeof term);
        else terms(term, x, y, &v);
        add(z, term, mask, &v);
    }
    return on * v.z * (64 / v.stride);
}

// 64 bytes round a ring of 512: where they lie, or in the room given where they wrap.
static inline const uint8_t *bytes_at(uint8_t *room, const uint8_t *ring, unsigned offset) {
    if (offset <= 448) return ring + offset;
    load(room, ring, offset);
    return room;
}

// What an operation gives: a NaN is the default one.
static inline uint32_t bits32(float f) {
    uint32_t bits;
    memcpy(&bits, &f, sizeof bits);
    return f == f ? bits : 0x7fc00000;
}

static inline uint64_t bits64(double f) {
    uint64_t bits;
    memcpy(&bits, &f, sizeof bits);
    return f == f ? bits : 0x7ff8000000000000;
}

#define EACH(COUNT) _Pragma("GCC unroll 1") for (int i = 0; i < COUNT; i++) // unrolled, gcc does one lane at a time
// the enabled lanes of a row take these bits
#define STORE(COUNT, BITS) EACH(COUNT) old[i] = ((BITS) & mask[i]) | (old[i] & ~mask[i])

// The vectors of vecfp at a lane width: a side's lanes, a vector, all vectors. What is moved passes through no float. In mode 4 a mask is used for the
// choice, since gcc would test lane by lane.
#define VECFP(BITS, FLOAT) \
    static inline void side##BITS(uint##BITS##_t *restrict to, const uint8_t *ring, unsigned offset, int lane, bool zero) { \
        uint8_t room[64]; \
        memcpy(to, bytes_at(room, ring, offset & 511), 64); \
        if (lane >= 0) { \
            uint##BITS##_t one = to[lane]; \
            EACH(512 / BITS) to[i] = one; \
        } \
        if (zero) memset(to, 0, 64); \
    } \
    \
    static void vector##BITS(uint8_t *restrict z, const uint##BITS##_t *restrict xbits, const uint##BITS##_t *restrict ybits, \
                             const int##BITS##_t *restrict mask, unsigned mode, bool force) { \
        enum { LANES = 512 / BITS }; \
        FLOAT x[LANES], y[LANES], sum[LANES]; \
        uint##BITS##_t old[LANES]; \
        memcpy(x, xbits, 64); \
        memcpy(y, ybits, 64); \
        memcpy(sum, z, 64); \
        memcpy(old, z, 64); \
        if (force) STORE(LANES, 0); \
        else if (mode == 10) STORE(LANES, bits##BITS(x[i] * y[i])); \
        else if (mode == 11) STORE(LANES, bits##BITS(sum[i] + x[i])); \
        else if (mode == 12) STORE(LANES, bits##BITS(sum[i] + y[i])); \
        else STORE(LANES, ybits[i] & (x[i] <= 0 ? 0 : ~(uint##BITS##_t)0)); \
        memcpy(z, old, 64); \
    } \
    \
    static uint64_t vectors##BITS(uint8_t *state, uint64_t op, struct vec *v, bool several) { \
        enum { LANES = 512 / BITS }; \
        unsigned n = field(op, 32, 36), xoffset = field(op, 10, 18), yoffset = field(op, 0, 8); \
        uint##BITS##_t x[LANES], y[LANES]; \
        int##BITS##_t mask[LANES]; \
        int from, to, skipped, on = 0; \
        enabled_range(several ? 1 : field(op, 38, 40), n, LANES, &from, &to, &skipped); \
        EACH(LANES) { \
            int32_t one = -(i >= from && i < to && (i & 1) != skipped); \
            mask[i] = one; \
            on -= one; \
        } \
        vectors(v, op, several, n); \
        for (int row = v->row; row < 64; row += v->stride, xoffset += v->xstep, yoffset += v->ystep) { \
            side##BITS(x, state, xoffset, v->xlane, v->xzero); \
            side##BITS(y, state + 512, yoffset, v->ylane, v->yzero); \
            vector##BITS(state + 1024 + 64 * row, x, y, mask, v->mode, v->force); \
        } \
        return on * (BITS / 8) * (64 / v->stride); \
    }
VECFP(32, float)
VECFP(64, double)

static uint64_t vecfp(uint8_t *state, unsigned generation, uint64_t op) {
    if (field(op, 54, 56)) return AMX_NO_OP_RESERVED_BITS;
    unsigned mode = bit(op, 53) ? 0 : field(op, 47, 52), number = field(op, 42, 45);
    bool known = mode < 2 || mode == 4 || mode == 5 || mode == 7 || (mode >= 10 && mode <= 12);
    if (!known) return AMX_NO_OP_RESERVED_MODE;
    if (mode >= 10 && generation == AMX_M1) return AMX_NO_OP_LATER_MODE;
    if ((mode != 4 && mode < 10) || (number != 4 && number != 7) || field(op, 27, 30)) return AMX_REFUSED_NOT_COVERED;
    bool several = generation == AMX_M2 && bit(op, 31);
    struct vec v = {.mode = mode, .y = number == 4 ? 4 : 8, .rows = 1, .xstep = 64, .ystep = 64};
    return (number == 4 ? vectors32 : vectors64)(state, op, &v, several);
}

// the lanes of eight in a side of fms64 that are on, a bit for each
static unsigned lane_set(unsigned mode, unsigned n) {
    switch (mode) {
    case 0: return n == 0 ? 255 : n == 1 ? 0xaa : n == 2 ? 0x55 : 0;
    case 1: return n < 8 ? 1 << n : 0;
    case 2: return n == 0 || n >= 8 ? 255 : 255 >> (8 - n);
    default: return n == 0 || n >= 8 ? 255 : 255 & 255 << (8 - n);
    }
}

// A row of fms64: what is taken from Z, or stored with its sign flipped, is of X or of Y.
static void row64(uint8_t *restrict z, const uint64_t *restrict side, const uint64_t *restrict mask, bool none, bool keep) {
    uint64_t old[8];
    double from[8], taken[8];
    memcpy(old, z, 64);
    memcpy(from, z, 64);
    memcpy(taken, side, 64);
    if (none) STORE(8, 1ull << 63);
    else if (keep) STORE(8, bits64(from[i] - taken[i]));
    else STORE(8, side[i] ^ 1ull << 63);
    memcpy(z, old, 64);
}

static uint64_t fms64(uint8_t *state, uint64_t op) {
    bool skipx = bit(op, 29), skipy = bit(op, 28), keep = !bit(op, 27), none = skipx && skipy;
    if (!skipx && !skipy) return AMX_REFUSED_NOT_COVERED;
    unsigned xon = lane_set(field(op, 46, 47), field(op, 41, 45)), yon = bit(op, 63) ? 1 : lane_set(field(op, 37, 38), field(op, 32, 36));
    uint64_t bytes = 8 * __builtin_popcount(xon) * __builtin_popcount(yon);
    if (none && keep) return bytes; // z stays
    uint8_t room[64], *z = state + 1024;
    uint64_t x[8], y[8], same[8], mask[8];
    memcpy(x, bytes_at(room, state, field(op, 10, 18)), 64);
    memcpy(y, bytes_at(room, state + 512, field(op, 0, 8)), 64);
    for (int i = 0; i < 8; i++) mask[i] = -(uint64_t)(xon >> i & 1);
    if (bit(op, 63)) {
        row64(z + 64 * field(op, 20, 25), skipy ? x : y, mask, none, keep);
        return bytes;
    }
    for (int j = 0; j < 8; j++) {
        if (!(yon >> j & 1)) continue;
        EACH(8) same[i] = y[j];
        row64(z + 64 * (8 * j + field(op, 20, 22)), skipy ? x : same, mask, none, keep);
    }
    return bytes;
}

uint64_t NAME(uint8_t *state, uint64_t length, uint64_t instruction, uint64_t generation, uint64_t operand, uint64_t serial) {
    if (length != AMX_STATE_LENGTH) return AMX_REFUSED_STATE_LENGTH;
    if (generation != AMX_M1 && generation != AMX_M2) return AMX_REFUSED_GENERATION;
    if (instruction != AMX_FMS64 && instruction != AMX_MAC16 && instruction != AMX_VECINT && instruction != AMX_VECFP) return AMX_REFUSED_INSTRUCTION;
    uint64_t count;
    memcpy(&count, state + AMX_COUNT_AT, sizeof count);
    if (count == UINT64_MAX) return AMX_REFUSED_LAST_COUNT;
    if (serial != count) return AMX_REFUSED_SERIAL;
    uint64_t answer = instruction == AMX_MAC16 ? mac16(state, operand) : instruction == AMX_VECINT ? vecint(state, generation, operand)
                    : instruction == AMX_VECFP ? vecfp(state, generation, operand) : fms64(state, operand);
    if (!AMX_IS_REFUSED(answer)) {
        count++;
        memcpy(state + AMX_COUNT_AT, &count, sizeof count);
    }
    return answer;
}
