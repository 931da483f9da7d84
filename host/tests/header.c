// The constants of amx.h in use, from C and from C++: calls of every answer, held to its constant and printed with its number.
#include <stdio.h>
#include <string.h>
#include "amx.h"

static uint8_t state[AMX_STATE_LENGTH], checkpoint[AMX_CHECKPOINT_LENGTH];
static int wrong;

static void check(const char *name, uint64_t expected, uint64_t answer) {
    int no_op = !strncmp(name, "AMX_NO_OP_", 10), refused = !strncmp(name, "AMX_REFUSED_", 12), done = !no_op && !refused;
    int kind = AMX_IS_DONE(answer) == done && AMX_IS_NO_OP(answer) == no_op && AMX_IS_REFUSED(answer) == refused;
    printf("%s %llu%s%s\n", name, (unsigned long long)answer, answer == expected ? "" : " is another number", kind ? "" : " is of another kind");
    if (answer != expected || !kind) wrong = 1;
}

static uint64_t step(uint64_t instruction, uint64_t generation, uint64_t operand, uint64_t serial) {
    return amx_step(state, sizeof state, instruction, generation, operand, serial);
}

#define CHECK(expected, answer) check(#expected, expected, answer)

int main(void) {
    CHECK(AMX_MOST_BYTES, step(AMX_MAC16, AMX_M1, 1ull << 62, 0));
    CHECK(64, step(AMX_VECFP, AMX_M2, 11ull << 47 | 4ull << 42, 1));
    CHECK(0, step(AMX_MAC16, AMX_M1, 1ull << 63 | 3ull << 41, 2));
    CHECK(AMX_NO_OP_RESERVED_BITS, step(AMX_VECINT, AMX_M1, 1ull << 54, 3));
    CHECK(AMX_NO_OP_RESERVED_MODE, step(AMX_VECFP, AMX_M2, 2ull << 47, 4));
    CHECK(AMX_NO_OP_LATER_MODE, step(AMX_VECINT, AMX_M1, 10ull << 47, 5));
    CHECK(AMX_REFUSED_STATE_LENGTH, amx_step(state, AMX_COUNT_AT, AMX_MAC16, AMX_M1, 0, 6));
    CHECK(AMX_REFUSED_GENERATION, step(AMX_MAC16, AMX_M2 + 1, 0, 6));
    CHECK(AMX_REFUSED_INSTRUCTION, step(AMX_MAC16 + 1, AMX_M1, 0, 6));
    CHECK(AMX_REFUSED_NOT_COVERED, step(AMX_FMS64, AMX_M1, 0, 6));
    CHECK(AMX_REFUSED_SERIAL, step(AMX_MAC16, AMX_M1, 0, 5));
    CHECK(AMX_REFUSED_NOT_COVERED, amx_normal_answer(AMX_FMS64, AMX_M1, 0));
    CHECK(7, amx_normal_operand(AMX_MAC16, AMX_M1, 7 | 1ull << 9));
    CHECK(AMX_CHECKPOINT_LENGTH, amx_checkpoint(state, sizeof state, 10, checkpoint, sizeof checkpoint));
    memset(state + AMX_COUNT_AT, 255, sizeof state - AMX_COUNT_AT);
    CHECK(AMX_REFUSED_LAST_COUNT, step(AMX_MAC16, AMX_M1, 0, UINT64_MAX));
    return wrong;
}
