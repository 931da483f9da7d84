// Four instructions of the AMX unit, two on integers and two on floats: libamx.a, for x86-64. Every function takes every argument, keeps nothing
// and calls back to nothing.
#ifndef AMX_H
#define AMX_H
#include <stdint.h>

#ifdef __cplusplus
extern "C" {
#endif

// The state's length in bytes: X at 0 (512 bytes), Y at 512 (512 bytes), Z at 1,024 (64 rows of 64 bytes), then the count of steps taken, a
// u64. Lanes and the count are little-endian.
#define AMX_STATE_LENGTH 5128
// Where the count lies; the registers are the bytes before it.
#define AMX_COUNT_AT 5120
// The length in bytes of a trace's third section, its checkpoint: the steps consumed, a little-endian u32, then the state.
#define AMX_CHECKPOINT_LENGTH 5132

// Instructions.
#define AMX_FMS64 11
#define AMX_MAC16 14
#define AMX_VECINT 18
#define AMX_VECFP 19

// Generations.
#define AMX_M1 1
#define AMX_M2 2

// Answers. A step that is done answers the number of Z bytes in the lanes enabled, 0 to AMX_MOST_BYTES.
#define AMX_MOST_BYTES 4096

// A no-op: the chip would do nothing either.
#define AMX_NO_OP 65536
#define AMX_NO_OP_RESERVED_BITS (AMX_NO_OP + 1)   // vecint or vecfp, any of bits 54..56 set
#define AMX_NO_OP_RESERVED_MODE (AMX_NO_OP + 2)   // vecint, ALU mode 7, 8, 9 or above 12; vecfp, ALU mode 2, 3, 6, 8, 9 or above 12
#define AMX_NO_OP_LATER_MODE (AMX_NO_OP + 3)      // vecint or vecfp, ALU mode 10, 11 or 12 on M1

// A refusal: the unit does not cover the call, or the serial is not the one due.
#define AMX_REFUSED 131072
#define AMX_REFUSED_STATE_LENGTH (AMX_REFUSED + 1)   // the length is not AMX_STATE_LENGTH
#define AMX_REFUSED_GENERATION (AMX_REFUSED + 2)     // the generation is none of those above
#define AMX_REFUSED_INSTRUCTION (AMX_REFUSED + 3)    // the instruction is none of those above
#define AMX_REFUSED_NOT_COVERED (AMX_REFUSED + 4)    // what is listed below
#define AMX_REFUSED_SERIAL (AMX_REFUSED + 8)         // the serial is not the count of steps taken
#define AMX_REFUSED_LAST_COUNT (AMX_REFUSED + 9)     // the count is 2^64 - 1, whatever the serial: the state takes no more steps

// Which of the three an answer is. The argument is evaluated once.
#define AMX_IS_DONE(answer) ((answer) < AMX_NO_OP)
#define AMX_IS_NO_OP(answer) ((answer) / AMX_NO_OP == 1)
#define AMX_IS_REFUSED(answer) ((answer) >= AMX_REFUSED)

// Not covered, and refused as such:
// - fms64 where neither X nor Y is skipped (bits 28 and 29 both 0);
// - vecint with a shuffle (bits 27..30 not all 0 outside ALU mode 4); with an indexed load (bit 53) it is done as ALU mode 0;
// - vecfp with an indexed load (bit 53), in ALU modes 0, 1, 5 and 7, at lane widths other than single and double (numbers 4 and 7 in bits
//   42..45), or with a shuffle (bits 27..30 not all 0, in ALU mode 4 too).
//
// The result of a float lane is one operation's, rounded once to nearest, ties to even, with subnormals kept; a NaN that an operation gives is
// the default one, 0x7FC00000 or 0x7FF8000000000000. For this the host must keep the floating-point environment of the calling thread as a
// program starts with it: rounding to nearest, no flush to zero (FTZ) and no denormals-are-zero (DAZ), exceptions masked; MXCSR, but for its
// flags, is 0x1F80. amx_step neither sets nor restores any of it, and nothing that is proved covers another setting: float lanes may then be
// wrong. The exception flags in MXCSR may be raised by a step.

// One step on a lent state. The bytes are the caller's: they are read and written during the call only, and no other call may use them
// meanwhile. `state` points to `length` bytes; it may be any pointer that is not null where `length` is 0. Done and no-op raise the count by
// one; a no-op changes nothing else, and a refusal changes no byte.
//
// `serial` is the count before the step, by which the caller names it. So a call that may not have arrived can be sent again with the same
// serial, and adds once: if it was done, and only steps have written the state since, it is now AMX_REFUSED_SERIAL (or AMX_REFUSED_LAST_COUNT)
// and changes no byte. The first of these that applies is answered: AMX_REFUSED_STATE_LENGTH, _GENERATION, _INSTRUCTION, _LAST_COUNT, _SERIAL;
// AMX_NO_OP_RESERVED_BITS, _RESERVED_MODE, _LATER_MODE; AMX_REFUSED_NOT_COVERED; done.
uint64_t amx_step(uint8_t *state, uint64_t length, uint64_t instruction, uint64_t generation, uint64_t operand, uint64_t serial);

// 0 where the step would be done with the serial due, or the step's own answer, a no-op or a refusal of the generation, the instruction or
// what is not covered.
uint64_t amx_normal_answer(uint64_t instruction, uint64_t generation, uint64_t operand);

// The normal operand: the operand with its ignored bits cleared; with it the step has the same answer and effect on every state, with every
// serial. The operand as given where the step would not be done.
uint64_t amx_normal_operand(uint64_t instruction, uint64_t generation, uint64_t operand);

// Writes the checkpoint of a trace that is stopped after `consumed` of its steps, refused ones counted, at the start of `out`: the third section
// that a trace file needs to go on from `state`. `state` points to `length` bytes and `out` to `out_length`; the two may not overlap, and each
// may be any pointer that is not null where its length is 0. Answers AMX_CHECKPOINT_LENGTH, or 0 where no byte was written: `length` is not
// AMX_STATE_LENGTH, or `out_length` is under AMX_CHECKPOINT_LENGTH, or `consumed` is 2^32 or more. Bytes of `out` behind the section stay.
uint64_t amx_checkpoint(const uint8_t *state, uint64_t length, uint64_t consumed, uint8_t *out, uint64_t out_length);

#ifdef __cplusplus
}
#endif
#endif
