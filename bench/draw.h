// What the programs of the bench share: random steps, and the clock.
#include <stdint.h>
#include <time.h>
#include "../include/amx.h"

struct call { uint64_t length, instruction, generation, operand; };

// room for a state and more, in whole cache lines: the rows of all versions lie alike in theirs
enum { LENGTH = AMX_STATE_LENGTH, ROOM = (LENGTH + 63) / 64 * 64 };

static uint64_t seed = 1;
static uint64_t next(void) {
    seed ^= seed << 13;
    seed ^= seed >> 7;
    return seed ^= seed << 17;
}
static uint64_t below(uint64_t n) { return (next() >> 20) % n; }
static uint64_t put(uint64_t operand, int first, int last, uint64_t value) {
    uint64_t ones = (2ull << (last - first)) - 1;
    return (operand & ~(ones << first)) | value << first;
}

// a byte of floats that are finite and normal at either width and at any offset, and so are their products
static uint8_t normal_byte(void) { return 0x30 + below(32) + 128 * below(2); }

// an operand that vecint mostly does, `loads` of four with an indexed load; modes and enables that have a meaning of their own are drawn more often than others
static uint64_t vecint_operand(unsigned loads) {
    uint64_t mode = below(13), operand = put(next(), 54, 56, 0);
    operand = below(4) < loads ? put(operand, 53, 53, 1) : put(operand, 47, 53, mode);
    if ((operand >> 47 & 127) != 4) operand = put(operand, 27, 30, 0);
    if (below(2)) operand = put(operand, 32, 37, below(8));
    if (below(3) == 0) operand = put(operand, 38, 40, 0);
    if (below(3) == 0) operand = put(operand, 58, 62, below(2) * 15);
    return operand;
}

// an operand that vecfp mostly does
static uint64_t vecfp_operand(void) {
    static const uint64_t mode[] = {4, 10, 11, 12}, width[] = {4, 7};
    uint64_t operand = put(next(), 53, 56, 0);
    operand = put(operand, 47, 52, below(16) ? mode[below(4)] : below(13));
    if (below(16)) operand = put(operand, 42, 45, width[below(2)]);
    if (below(16)) operand = put(operand, 27, 30, 0);
    if (below(2)) operand = put(operand, 32, 36, below(8));
    if (below(3) == 0) operand = put(operand, 38, 40, 0);
    return operand;
}

// an operand that fms64 mostly does
static uint64_t fms64_operand(void) {
    uint64_t operand = below(16) ? put(next(), 27, 29, 2 + below(6)) : next();
    if (below(2)) operand = put(operand, 41, 45, below(9));
    if (below(2)) operand = put(operand, 32, 36, below(9));
    return operand;
}

// a step of vecfp or fms64, mostly with offsets of whole lanes
static struct call draw_float(void) {
    struct call c = {LENGTH, below(3) ? AMX_VECFP : AMX_FMS64, below(3) ? AMX_M2 : AMX_M1, next()};
    if (below(16)) c.operand = c.instruction == AMX_VECFP ? vecfp_operand() : fms64_operand();
    if (below(4)) c.operand &= ~(7ull << 10 | 7);
    return c;
}

// a step, `floats` of four one of vecfp or fms64
static struct call draw(unsigned loads, unsigned floats) {
    static const uint64_t instruction[] = {0, 10, 12, 13, 15, 17, 20, (1ull << 32) + AMX_MAC16, (1ull << 8) + AMX_VECINT, (1ull << 32) + AMX_FMS64, (1ull << 8) + AMX_VECFP};
    static const uint64_t generation[] = {0, 3, 4, (1ull << 32) + 1, (1ull << 8) + 2}, length[] = {LENGTH - 1, LENGTH + 1, AMX_COUNT_AT};
    struct call c = {LENGTH, below(3) ? AMX_VECINT : AMX_MAC16, AMX_M1 + below(2), next()};
    if (c.instruction == AMX_VECINT && below(16)) c.operand = vecint_operand(loads);
    if (below(4) < floats) c = draw_float();
    if (below(64) == 0) c.instruction = below(8) ? instruction[below(11)] : next();
    if (below(64) == 0) c.generation = below(8) ? generation[below(5)] : next();
    if (below(64) == 0) c.length = below(2) ? below(ROOM) : length[below(3)];
    return c;
}

static double seconds(void) {
    struct timespec t;
    clock_gettime(CLOCK_MONOTONIC, &t);
    return t.tv_sec + 1e-9 * t.tv_nsec;
}
