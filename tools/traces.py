#!/usr/bin/env python3
"""The stored traces and the text that each must print.

A second source: the four instructions, the answers and the trace file are written here from the scope paper and its changes alone,
and share nothing with the crates. Floats are worked out exactly, in whole numbers, and rounded once: no float of Python's is used.
Run from the top of the repository, it writes data/, args and stdout of the programs crates/amx_trace and crates/traces anew.
"""
import pathlib
import random
import struct

REGISTERS = 5120
FMS64, MAC16, VECINT, VECFP = 11, 14, 18, 19
LAST = (1 << 64) - 1
# a state, and a trace's third section: the steps consumed, then the state
STATE = REGISTERS + 8
THIRD = 4 + STATE
# the steps of the longest trace, and those that a program takes at a time
MOST, RUN = 1000000, 2048


def bits(op, low, count):
    return op >> low & (1 << count) - 1


def number(data, width, lane, signed):
    size = width // 8
    return int.from_bytes(data[size * lane:size * lane + size], "little", signed=bool(signed))


def clamp(n, width, signed):
    low = -(1 << width - 1) if signed else 0
    return max(low, min(n, low + (1 << width) - 1))


def load(state, base, offset):
    return bytes(state[base + (offset + i) % 512] for i in range(64))


def store(state, row, width, lane, n):
    size = width // 8
    at = 1024 + 64 * row + size * lane
    state[at:at + size] = (n % (1 << width)).to_bytes(size, "little")


def z_row(state, row):
    return state[1024 + 64 * row:1088 + 64 * row]


# ---- lanes

def common_enable(mode, n, k, lanes):
    """Whether lane k is on, in the enable modes that all instructions have: 0, 2 and 3."""
    if mode == 0:
        return n == 0 or n in (1, 2) and k % 2 == n % 2
    return n == 0 or (k < n if mode == 2 else k >= lanes - n)


def matrix_enable(mode, n, k, lanes):
    """The enable modes of mac16 and fms64."""
    return k == n if mode == 1 else common_enable(mode, n, k, lanes)


def vector_enable(mode, n, k, lanes):
    """The enable modes of vecint and vecfp."""
    if mode < 4:
        return mode == 1 or mode == 0 and n in (3, 4, 5) or common_enable(mode, n, k, lanes)
    return mode < 6 and n > 0 and common_enable(mode - 2, n, k, lanes)


# ---- mac16

def factors(state, base, offset, is_i8):
    data = load(state, base, offset)
    return [number(data[2 * i:], 8 if is_i8 else 16, 0, True) for i in range(32)]


def mac16(state, op):
    """Runs a done step and gives the number of Z bytes in its enabled lanes."""
    x = factors(state, 0, bits(op, 10, 9), bits(op, 61, 1))
    y = factors(state, 512, bits(op, 0, 9), bits(op, 60, 1))
    x_on = [i for i in range(32) if matrix_enable(bits(op, 46, 2), bits(op, 41, 5), i, 32)]
    y_on = [j for j in range(32) if matrix_enable(bits(op, 37, 2), bits(op, 32, 5), j, 32)]
    skip_x, skip_y, skip_z, z = bits(op, 29, 1), bits(op, 28, 1), bits(op, 27, 1), bits(op, 20, 6)
    if bits(op, 63, 1):
        places = [(i, i, z, 16, i) for i in x_on]
    elif bits(op, 62, 1):
        places = [(i, j, 2 * j + i % 2, 32, i // 2) for j in y_on for i in x_on]
    else:
        places = [(i, j, 2 * j + z % 2, 16, i) for j in y_on for i in x_on]
    for i, j, row, width, lane in places:
        value = 0 if skip_x and skip_y else x[i] if skip_y else y[j] if skip_x else x[i] * y[j]
        old = 0 if skip_z else number(z_row(state, row), width, lane, True)
        store(state, row, width, lane, old + (value >> bits(op, 55, 5)))
    return sum(width // 8 for _, _, _, width, _ in places)


# ---- vecint

WIDTHS = {3: (16, 16, 32), 10: (8, 8, 32), 11: (8, 8, 16), 12: (8, 16, 32), 13: (16, 8, 32)}
SATURATIONS = {3: (32, 16), 4: (32, 32), 9: (8, 8), 10: (32, 8), 11: (16, 8)}


def alu_mode(op):
    return 0 if bits(op, 53, 1) else bits(op, 47, 6)


def side(state, op, base, offset, width, v, repeats):
    """The 64 bytes that X (base 0) or Y (base 512) gives to vector v: those at the offset, or the elements of the named register that
    the indices there choose."""
    indexed = bits(op, 53, 1) and base == 512 * bits(op, 47, 1)
    index = 4 if bits(op, 48, 1) else 2
    advance = 0 if repeats else 64 * index // width if indexed else 64
    loaded = load(state, base, offset + advance * v)
    if not indexed:
        return loaded
    register, packed = load(state, base, 64 * bits(op, 49, 3)), int.from_bytes(loaded, "little")
    elements = (number(register, width, bits(packed, index * k, index), False) for k in range(512 // width))
    return b"".join(n.to_bytes(width // 8, "little") for n in elements)


def result(mode, x, y, z, s):
    if mode in (5, 6):
        term = x * y + 16384 >> 15
        return clamp(z + term if mode == 5 else z - term, 16, True)
    if mode == 10:
        return x * y >> s
    if mode in (11, 12):
        return z + ((x if mode == 11 else y) >> s)
    term = (x * y if mode < 2 else x + y) >> s
    return z + term if mode in (0, 2) else z - term


def reduced(op, z, saturation):
    s = bits(op, 58, 5)
    z = z + (bits(op, 29, 1) << s >> 1) >> s
    return clamp(z, saturation, bits(op, 26, 1)) if bits(op, 30, 1) else z


def vector_4(state, op, row, enable, value, zero):
    width, saturation = SATURATIONS.get(bits(op, 42, 4), (16, 16))
    on = [k for k in range(512 // width) if vector_enable(enable, value, k, 512 // width)]
    for k in on:
        z = number(z_row(state, row), width, k, bits(op, 63, 1))
        store(state, row, width, k, 0 if zero else reduced(op, z, saturation))
    return len(on) * width // 8


def vector(state, op, mode, widths, row, x, y, x_lane, y_lane, enable, value, zero):
    """One vector: x and y are 64 bytes each; x_lane and y_lane, where given, serve every lane."""
    x_width, y_width, z_width = widths
    narrow = min(x_width, y_width)
    r = z_width // narrow

    def allowed(k, width):
        return vector_enable(enable, value, k * narrow // width, 512 // width)

    on = [k for k in range(512 // narrow) if allowed(k, x_width) and allowed(k, y_width)]
    for k in on:
        at, lane = row - row % r + k % r, k // r
        a = number(x, x_width, k * narrow // x_width if x_lane is None else x_lane, bits(op, 63, 1))
        b = number(y, y_width, k * narrow // y_width if y_lane is None else y_lane % (512 // y_width), bits(op, 26, 1))
        z = number(z_row(state, at), z_width, lane, True)
        store(state, at, z_width, lane, 0 if zero else result(mode, a, b, z, bits(op, 58, 5)))
    return len(on) * z_width // 8


def vectors(generation, op, value):
    """The row of each vector, the enable mode and its value, and the broadcast mode, which stands for the overrides of a single vector too."""
    z, enable = bits(op, 20, 6), bits(op, 38, 3)
    if generation == 2 and bits(op, 31, 1):
        stride = 16 if bits(op, 25, 1) else 32
        return range(z % stride, 64, stride), 0, 0, bits(op, 32, 3)
    return [z], enable, value, {3: 1, 4: 4, 5: 5}.get(value, 0) if enable == 0 else 0


def vecint(state, generation, op):
    mode = alu_mode(op)
    widths = (16, 16, 16) if mode in (5, 6) else WIDTHS.get(bits(op, 42, 4), (16, 16, 16))
    rows, enable, value, cast = vectors(generation, op, bits(op, 32, 6))
    x_lane = 0 if cast == 6 else None
    y_lane = 0 if cast == 7 else value if enable == 1 else None
    count = 0
    for v, row in enumerate(rows):
        if mode == 4:
            count += vector_4(state, op, row, enable, value, cast == 1)
            continue
        x = bytes(64) if cast == 4 else side(state, op, 0, bits(op, 10, 9), widths[0], v, cast in (2, 6))
        y = bytes(64) if cast == 5 else side(state, op, 512, bits(op, 0, 9), widths[1], v, cast in (3, 7))
        count += vector(state, op, mode, widths, row, x, y, x_lane, y_lane, enable, value, cast == 1)
    return count


# ---- floats, given as patterns

FORMATS = {32: (8, 23), 64: (11, 52)}  # bits of the exponent and of the fraction, by lane width


def pattern(width, sign, exponent, fraction):
    e, f = FORMATS[width]
    return (sign << e | exponent) << f | fraction


def parts(width, p):
    """Sign, exponent and fraction."""
    e, f = FORMATS[width]
    return bits(p, e + f, 1), bits(p, f, e), bits(p, 0, f)


def infinity(width, sign):
    return pattern(width, sign, (1 << FORMATS[width][0]) - 1, 0)


def default_nan(width):
    return {32: 0x7FC00000, 64: 0x7FF8000000000000}[width]


def magnitude(width, p):
    """The pattern without its sign: those of infinity and of NaNs are the highest."""
    return bits(p, 0, width - 1)


def is_nan(width, p):
    return magnitude(width, p) > infinity(width, 0)


def is_infinite(width, p):
    return magnitude(width, p) == infinity(width, 0)


def lowest(width):
    """The least subnormal is 2 to this power."""
    e, f = FORMATS[width]
    return 2 - (1 << e - 1) - f


def exact(width, p):
    """The value of a finite float: a whole number, and the power of two that it is multiplied by."""
    sign, exponent, fraction = parts(width, p)
    n = fraction + (1 << FORMATS[width][1]) if exponent else fraction
    return -n if sign else n, lowest(width) + max(exponent - 1, 0)


def rounded(width, sign, n, power):
    """The float nearest to n * 2 ** power, n not negative: of two that are as near, the one with an even fraction."""
    e, f = FORMATS[width]
    unit = max(n.bit_length() + power - f - 1, lowest(width))
    if unit <= power:
        kept = n << power - unit
    else:
        kept, rest = divmod(n, 1 << unit - power)
        half = 1 << unit - power - 1
        if rest > half or rest == half and kept % 2:
            kept += 1
    if kept == 1 << f + 1:
        kept, unit = kept // 2, unit + 1
    exponent = unit - lowest(width) + 1 if kept >= 1 << f else 0
    return infinity(width, sign) if exponent >= (1 << e) - 1 else pattern(width, sign, exponent, bits(kept, 0, f))


def add(width, a, b):
    sign_a, sign_b = parts(width, a)[0], parts(width, b)[0]
    if is_nan(width, a) or is_nan(width, b) or is_infinite(width, a) and is_infinite(width, b) and sign_a != sign_b:
        return default_nan(width)
    if is_infinite(width, a) or is_infinite(width, b):
        return a if is_infinite(width, a) else b
    (m, power_a), (n, power_b) = exact(width, a), exact(width, b)
    power = min(power_a, power_b)
    total = (m << power_a - power) + (n << power_b - power)
    return rounded(width, sign_a & sign_b if total == 0 else int(total < 0), abs(total), power)


def multiply(width, a, b):
    sign = parts(width, a)[0] ^ parts(width, b)[0]
    if is_nan(width, a) or is_nan(width, b):
        return default_nan(width)
    if is_infinite(width, a) or is_infinite(width, b):
        return default_nan(width) if 0 in (magnitude(width, a), magnitude(width, b)) else infinity(width, sign)
    (m, power_a), (n, power_b) = exact(width, a), exact(width, b)
    return rounded(width, sign, abs(m * n), power_a + power_b)


def negate(width, a):
    return a ^ 1 << width - 1


def at_most_zero(width, a):
    return not is_nan(width, a) and (magnitude(width, a) == 0 or parts(width, a)[0] == 1)


# ---- vecfp

def float_result(mode, width, x, y, z):
    if mode == 4:
        return 0 if at_most_zero(width, x) else y
    return multiply(width, x, y) if mode == 10 else add(width, z, x if mode == 11 else y)


def vecfp(state, generation, op):
    mode, width = alu_mode(op), {4: 32, 7: 64}[bits(op, 42, 4)]
    lanes = 512 // width
    rows, enable, value, cast = vectors(generation, op, bits(op, 32, 5))
    on = [k for k in range(lanes) if vector_enable(enable, value, k, lanes)]
    for v, row in enumerate(rows):
        x = bytes(64) if cast == 4 else load(state, 0, bits(op, 10, 9) + (0 if cast in (2, 6) else 64 * v))
        y = bytes(64) if cast == 5 else load(state, 512, bits(op, 0, 9) + (0 if cast in (3, 7) else 64 * v))
        for k in on:
            a = number(x, width, 0 if cast == 6 else k, False)
            b = number(y, width, 0 if cast == 7 else value % lanes if enable == 1 else k, False)
            z = number(z_row(state, row), width, k, False)
            store(state, row, width, k, 0 if cast == 1 else float_result(mode, width, a, b, z))
    return len(rows) * len(on) * width // 8


# ---- fms64

def fms64(state, op):
    x = [number(load(state, 0, bits(op, 10, 9)), 64, i, False) for i in range(8)]
    y = [number(load(state, 512, bits(op, 0, 9)), 64, j, False) for j in range(8)]
    x_on = [i for i in range(8) if matrix_enable(bits(op, 46, 2), bits(op, 41, 5), i, 8)]
    y_on = [j for j in range(8) if matrix_enable(bits(op, 37, 2), bits(op, 32, 5), j, 8)]
    skip_x, skip_y, skip_z, z_number = bits(op, 29, 1), bits(op, 28, 1), bits(op, 27, 1), bits(op, 20, 6)
    if bits(op, 63, 1):
        places = [(i, i, z_number) for i in x_on]
    else:
        places = [(i, j, 8 * j + z_number % 8) for j in y_on for i in x_on]
    for i, j, row in places:
        z = number(z_row(state, row), 64, i, False)
        if skip_x and skip_y:
            new = 1 << 63 if skip_z else z
        else:
            minus = negate(64, y[j] if skip_x else x[i])
            new = minus if skip_z else add(64, z, minus)
        store(state, row, 64, i, new)
    return 8 * len(places)


# ---- the step and the trace

def taken(state):
    """The count, a u64 after the registers."""
    return int.from_bytes(state[REGISTERS:], "little")


def step(state, instruction, generation, op, serial):
    """One step on a state of registers and a count of steps taken, which done and no-op raise."""
    count = taken(state)
    if generation not in (1, 2):
        return "refused 2"
    if instruction not in (FMS64, MAC16, VECINT, VECFP):
        return "refused 3"
    if count == LAST:
        return "refused 9"
    if serial != count:
        return "refused 8"
    if instruction == MAC16:
        answer = f"done {mac16(state, op)}"
    elif instruction == FMS64:
        answer = f"done {fms64(state, op)}" if bits(op, 28, 2) else "refused 4"
    else:
        answer = (vecint_answer if instruction == VECINT else vecfp_answer)(state, generation, op)
    if not answer.startswith("refused"):
        state[REGISTERS:] = (count + 1).to_bytes(8, "little")
    return answer


def vecint_answer(state, generation, op):
    mode = alu_mode(op)
    if bits(op, 54, 3):
        return "no-op 1"
    if mode in (7, 8, 9) or mode > 12:
        return "no-op 2"
    if mode in (10, 11, 12) and generation == 1:
        return "no-op 3"
    if mode != 4 and bits(op, 27, 4):
        return "refused 4"
    return f"done {vecint(state, generation, op)}"


def vecfp_answer(state, generation, op):
    mode = alu_mode(op)
    if bits(op, 54, 3):
        return "no-op 1"
    if mode not in (0, 1, 4, 5, 7, 10, 11, 12):
        return "no-op 2"
    if mode in (10, 11, 12) and generation == 1:
        return "no-op 3"
    if mode in (0, 1, 5, 7) or bits(op, 42, 4) not in (4, 7) or bits(op, 27, 4):  # with bit 53 the mode is 0
        return "refused 4"
    return f"done {vecfp(state, generation, op)}"


def table(n, sections):
    """The table of a trace of n steps, and of a third section where it has one."""
    at = 4 + 12 * sections
    entries = [(1, 0, at, REGISTERS), (2, 0, at + REGISTERS, 16 * n), (3, 0, at + REGISTERS + 16 * n, THIRD)][:sections]
    return struct.pack("<I", sections) + b"".join(struct.pack("<HHII", *entry) for entry in entries)


def number_at(file, at):
    return int.from_bytes(file[at:at + 4], "little")


def send(state, record):
    return step(state, record[0], record[1], record[3], taken(state))


def steps_in(file):
    """The number of steps, by the table."""
    return number_at(file, 24) // 16


def table_refusal(file):
    """The number of the refusal that a file's table alone brings, or None."""
    sections = number_at(file, 0)
    if len(file) < 28 or sections == 3 and len(file) < 40:
        return 5
    n = steps_in(file)
    return 6 if sections not in (2, 3) or n > MOST or not file.startswith(table(n, sections)) else None


def whole_refusal(file):
    """The same for a file of three sections whose table is right, by all that follows: no step of it is run before."""
    n = steps_in(file)
    third = 40 + REGISTERS + 16 * n
    if len(file) != third + THIRD or number_at(file, third) > n:
        return 6
    return 7 if any(any(r[2]) for r in records_of(file)) else None


RECORD = struct.Struct("<BB6sQ")  # instruction, generation, padding and operand


def records_of(file):
    """The steps of a file that has them all."""
    at = 4 + 12 * number_at(file, 0) + REGISTERS
    return [RECORD.unpack_from(file, at + 16 * i) for i in range(steps_in(file))]


def step_line(state, i, record):
    return f"step {i} {send(state, record)}"


def last_lines(start, state, n):
    """What follows the steps of an accepted file."""
    return [f"z {r} {z_row(state, r).hex()}" for r in range(64) if z_row(state, r) != z_row(start, r)] + [f"steps {n}"]


def lines_as_read(file):
    """The lines of a file of two sections whose table is right. A step is run as soon as it is read, so they may end with a refusal."""
    n, start, steps = steps_in(file), file[28:28 + REGISTERS], file[28 + REGISTERS:]
    lines, state = [], bytearray(start + bytes(8))
    if len(start) < REGISTERS:
        return ["file refused 6"]
    for i in range(n):
        record = steps[16 * i:16 * i + 16]
        if len(record) < 16:
            return lines + ["file refused 6"]
        if any(record[2:8]):
            return lines + ["file refused 7"]
        lines.append(step_line(state, i, RECORD.unpack(record)))
    return lines + (["file refused 6"] if len(steps) > 16 * n else last_lines(start, state, n))


def resumed_lines(file):
    """The lines of an accepted file of three sections."""
    consumed, state, n = number_at(file, len(file) - THIRD), bytearray(file[-STATE:]), steps_in(file)
    lines = [step_line(state, i, r) for i, r in enumerate(records_of(file)) if i >= consumed]
    return lines + last_lines(file[40:40 + REGISTERS], state, n)


def text(file):
    three = number_at(file, 0) == 3
    refused = table_refusal(file) or three and whole_refusal(file)
    lines = [f"file refused {refused}"] if refused else resumed_lines(file) if three else lines_as_read(file)
    return "".join(line + "\n" for line in lines)


def trace(registers, steps):
    return table(len(steps), 2) + bytes(registers) + b"".join(struct.pack("<BB6xQ", *s) for s in steps)


def resumed(file, consumed, state):
    """The file of three sections that goes on with a file of two after so many of its steps, from this state."""
    return table(steps_in(file), 3) + file[28:] + struct.pack("<I", consumed) + bytes(state)


def cut(file, consumed, count=None):
    """The same from the state that these steps left, which may get another count."""
    state = bytearray(file[28:28 + REGISTERS] + bytes(8))
    for record in records_of(file)[:consumed]:
        send(state, record)
    if count is not None:
        state[REGISTERS:] = count.to_bytes(8, "little")
    return resumed(file, consumed, state)


# ---- the traces

PLACES = {
    FMS64: dict(vector=63, x_mode=46, x_value=41, y_mode=37, y_value=32, skips=27, z=20, x=10, y=0),
    MAC16: dict(vector=63, wide=62, shift=55, x_mode=46, x_value=41, y_mode=37, y_value=32, z=20, x=10, y=0),
    VECINT: dict(
        x_signed=63, shift=58, indexed=53, ignored=52, register=49, index_4_bits=48, index_y=47, alu=47, widths=42, mode=38, value=32,
        several=31, saturate=30, rounding=29, y_signed=26, four=25, z=20, x=10, y=0),
    VECFP: dict(indexed=53, alu=47, widths=42, mode=38, value=32, several=31, four=25, z=20, x=10, y=0),
}


def call(instruction, generation, **fields):
    return instruction, generation, sum(n << PLACES[instruction][name] for name, n in fields.items())


def product():
    """A times B, plus a bias, halved and clamped to 8 bits. Each step of the product takes a row of B from X and a column of A from Y."""
    a = [[1, -2, 3, 4], [5, 6, -7, 8], [9, 10, 11, 12], [-13, 14, 15, 16]]
    b = [[2, 0, 1, -1], [0, 3, 1, 4], [5, -1, 1, 2], [1, 1, -6, 20]]
    registers = bytearray(REGISTERS)
    for k in range(4):
        struct.pack_into("<4h", registers, 64 * k, *b[k])
        struct.pack_into("<4h", registers, 512 + 64 * k, *(row[k] for row in a))
    struct.pack_into("<4h", registers, 256, 100, 200, -100, 0)
    bias = dict(alu=11, mode=4, value=4, x=256, x_signed=1)
    halve = dict(alu=4, mode=4, value=4, x_signed=1, shift=1, rounding=1, saturate=1, y_signed=1, widths=11)
    steps = [call(MAC16, 1, x_mode=2, x_value=4, y_mode=2, y_value=4, x=64 * k, y=64 * k) for k in range(4)]
    steps += [call(VECINT, 1, **bias)]  # M1 has no such mode
    steps += [call(VECINT, 2, z=2 * j, **bias) for j in range(4)]
    steps += [(VECINT, 2, 1 << 27)]  # a shuffle
    return trace(registers, steps + [call(VECINT, 2, z=2 * j, **halve) for j in range(4)])


def answers(rng):
    """Every answer that a step of a trace can have, in each form and mode, on random bytes."""
    steps = [call(MAC16, 1, vector=1, z=63, x=480, y=500), call(MAC16, 2, x_mode=2, x_value=3, y_value=1, z=7), call(MAC16, 1, wide=1, shift=3)]
    steps += [call(MAC16, 1, vector=1, x_value=3), (MAC16, 0, 0), (MAC16, 3, 0), (13, 1, 0), (VECINT, 0, 0), (20, 0, 0), (VECINT, 3, 1 << 54)]
    steps += [call(VECINT, 1, alu=m, x_signed=1, y_signed=1, z=m, x=16 * m) for m in range(7)]
    steps += [call(VECINT, 2, alu=m, z=m, y=16 * m, shift=2) for m in (10, 11, 12)]
    steps += [call(VECINT, 1, widths=w, z=22) for w in (3, 10, 11, 12, 13)]
    steps += [call(VECINT, 2, several=1, z=37, value=c) for c in range(8)]
    steps += [(VECINT, 1, 1 << b) for b in (53, 54, 55, 56)] + [call(VECINT, 2, alu=m) for m in (7, 8, 9, 13, 63)]
    steps += [call(VECINT, 1, alu=m) for m in (10, 11, 12)] + [(VECINT, 2, 1 << b) for b in (27, 28, 29, 30)]
    return trace(rng.randbytes(REGISTERS), steps)


def mixed_widths(rng):
    """Widths 12 and 13, whose mask is read at two lane widths, in every enable mode and at the values where lanes begin, end or change side."""
    values = (0, 1, 2, 3, 4, 5, 6, 16, 31, 32, 33, 40, 63)
    steps = [call(VECINT, 1, widths=w, mode=m, value=n, z=(4 * m + n) % 64, x=n) for w in (12, 13) for m in range(8) for n in values]
    return trace(rng.randbytes(REGISTERS), steps)


def indexed_loads(rng):
    """Indexed loads of both sides by indices of both widths, at random places: widths, vectors, broadcast modes, masks, registers.
    At the end, each bit that is ignored or turns one away."""
    widths = (0, 3, 10, 11, 12, 13)
    two, four = dict(several=1), dict(several=1, four=1)
    masks = ((0, 2), (0, 3), (0, 4), (0, 5), (1, 33), (2, 5), (5, 40), (6, 0))
    cases = [(generation, dict(vectors, widths=w)) for generation, vectors in ((1, {}), (2, two), (2, four)) for w in widths]
    cases += [(2, dict(vectors, value=cast)) for vectors in (two, four) for cast in range(8)]
    cases += [(1, dict(mode=m, value=n)) for m, n in masks] + [(2, dict(register=r)) for r in range(8)]
    steps = []
    for form in (dict(indexed=1, index_4_bits=four_bits, index_y=y) for four_bits in (0, 1) for y in (0, 1)):
        for generation, fields in cases:
            form["widths"] = rng.choice(widths)
            for name, n in dict(ignored=2, register=8, x_signed=2, y_signed=2, shift=4, z=32, x=512, y=512).items():
                form[name] = rng.randrange(n)
            steps += [call(VECINT, generation, **{**form, **fields})]
    return trace(rng.randbytes(REGISTERS), steps + [(VECINT, 2, 1 << 53 | 1 << b) for b in (27, 28, 29, 30, 52, 54, 55, 56)])


def specials(width):
    """32 floats: zero, subnormals, infinity and NaNs, and those of which two have a sum or product that is a tie, or next to one, or overflows."""
    e, f = FORMATS[width]
    bias, last, ones = (1 << e - 1) - 1, (1 << e) - 1, (1 << f) - 1

    def power(n, fraction=0):
        return pattern(width, 0, bias + n, fraction)

    small = [0, 1, 3, 1 << f - 1, ones, ones + 1, ones + 2]
    near_1 = [power(-1), power(-1, ones), power(0), power(0, 1), power(0, 2), power(0, ones), power(0, 1 << f - 1)]
    half_of_last = [power(-f - 2, ones), power(-f - 1), power(-f - 1, 1)]  # half of the last digit of 1, with what is next to it
    short = [power(0, 1 << f // 2), power(0, 1 << f // 2 - 1), power(1, 3 << f // 2)]
    root = (lowest(width) - 1) // 2  # two of these make half of the least, or one and the next
    halves = [power(root), power(root + 1), power(root, 1)]
    big = [power(bias // 2), power(bias // 2 + 1), power(bias - f - 2, ones), power(bias - f - 1), power(bias, ones - 1), power(bias, ones)]
    high = [infinity(width, 0), pattern(width, 0, last, 1), pattern(width, 0, last, ones // 2 + 2)]  # a signalling NaN, and a quiet one
    return small + near_1 + half_of_last + short + halves + big + high


def pairs(width):
    """The floats of four registers, and 16 more. Pairs of one of each are the cases of an operation."""
    every, e = specials(width), width - 1
    many = [p | sign << e for sign in (0, 1) for p in every] if width == 32 else [p | (i + 1) % 2 << e for i, p in enumerate(every)]
    few = [p | sign << e for p, sign in zip((every[i] for i in (0, 0, 1, 2, 5, 9, 9, 10, 13, 17, 20, 28, 28, 29, 29, 31)), (0, 1) * 8)]
    return many, few


def packed(width, lanes, size):
    """Lanes one after another, filled up with zeros."""
    return b"".join(p.to_bytes(width // 8, "little") for p in lanes).ljust(size, b"\0")


def all_pairs(width, mode):
    """One mode of vecfp on every pair: each step does four registers with one more float, which is a lane of Y, or the old Z."""
    many, few = pairs(width)
    x, y = (packed(width, lanes, 512) for lanes in ((few, many) if mode == 12 else (many, few)))
    z = b"".join(packed(width, [p] * (512 // width), 64) for p in few) * 4
    form = dict(alu=mode, widths=4 if width == 32 else 7, several=1, four=1)
    casts = dict(value=7) if mode in (4, 10) else {}
    steps = [call(VECFP, 2, z=j, y=width // 8 * j if casts else 0, **form, **casts) for j in range(16)]
    return trace(x + y + (bytes(4096) if casts else z), steps)


def fms64_pairs():
    """z - x with 32 floats as X and 8 as old Z, then z - y the same: a step has 8 of each."""
    every = specials(64)
    x, y = packed(64, every, 512), packed(64, [negate(64, p) for p in every], 512)
    old = [every[i] | sign << 63 for i, sign in zip((0, 0, 1, 9, 10, 28, 29, 30), (0, 1) * 4)]
    rows = [[old[j]] * 8 if r < 4 else old for j in range(8) for r in range(8)]
    steps = [call(FMS64, 1 + r % 2, skips=2, z=r, x=64 * r) for r in range(4)]
    steps += [call(FMS64, 1 + r % 2, skips=4, z=4 + r, y=64 * r) for r in range(4)]
    return trace(x + y + b"".join(packed(64, row, 64) for row in rows), steps)


def float_registers(rng, *widths):
    """Lanes of special floats of both signs and of random ones, each register or row at one of the widths."""
    def lane(width):
        return rng.choice(specials(width)) | rng.getrandbits(1) << width - 1 if rng.randrange(4) else rng.getrandbits(width)

    def row(width):
        return packed(width, [lane(width) for _ in range(512 // width)], 64)

    return b"".join(row(rng.choice(widths)) for _ in range(80))


def ignored(rng, step, *places):
    """The step with random bits at places where they are ignored."""
    return *step[:2], step[2] | sum(rng.getrandbits(1) << n for n in places)


VECFP_IGNORED = (9, 19, 26, 41, 46, 57, 58, 59, 60, 61, 62, 63)
FMS64_IGNORED = (9, 19, 26, 30, 31, 39, 40, *range(48, 63))


def float_answers(rng):
    """Every answer that a step of vecfp or fms64 can have, on both generations; where several rows of the table apply, the first is answered."""
    steps = [(instruction, generation, 1 << 28) for instruction in (FMS64, VECFP) for generation in (0, 3)]
    steps += [(instruction, 2, 1 << 28) for instruction in (10, 12, 13, 15, 16, 17, 20)]
    for generation in (1, 2):
        steps += [call(FMS64, generation, skips=n, vector=n % 2, z=n, x=8 * n, y=8 * n) for n in range(8)]
        steps += [call(VECFP, generation, alu=m, widths=4, z=20 + m % 16, x=4 * m, y=4 * m) for m in (*range(17), 20, 36, 63)]
        steps += [call(VECFP, generation, alu=4 if generation == 1 else 10, widths=w, z=40 + w) for w in range(16)]
        cases = [(alu, 7, b) for alu in (4, 10) for b in (27, 28, 29, 30, 53, 54, 55, 56)] + [(8, 0, 54), (8, 0, 27), (10, 0, 27), (63, 0, 53)]
        steps += [(VECFP, generation, alu << 47 | widths << 42 | 1 << b) for alu, widths, b in cases]
    return trace(float_registers(rng, 32, 64), steps)


def float_masks(rng):
    """The enable modes of vecfp at the values where lanes begin, end or change side, with overrides and broadcast lanes; bit 37 is ignored."""
    cases = [(0, n) for n in range(8)] + [(1, n) for n in (0, 7, 8, 15, 16, 31)] + [(m, 5) for m in (6, 7)]
    steps = []
    for widths, lanes in ((4, 16), (7, 8)):
        for m, n in cases + [(m, n) for m in (2, 3, 4, 5) for n in (0, 1, lanes - 1, lanes, lanes + 1, 31)]:
            alu = rng.choice((4, 10, 11, 12))
            place = dict(z=rng.randrange(64), x=4 * rng.randrange(128), y=4 * rng.randrange(128))
            step = call(VECFP, 1 if alu == 4 else 2, alu=alu, widths=widths, mode=m, value=n, **place)
            steps += [ignored(rng, step, 37, *VECFP_IGNORED)]
    return trace(float_registers(rng, 32, 64), steps)


def float_vectors(rng):
    """Two and four vectors of vecfp in every broadcast mode, and one vector where bit 31 is ignored."""
    steps = []
    for widths in (4, 7):
        for four, cast, alu in [(four, cast, rng.choice((4, 10, 11, 12))) for four in (0, 1) for cast in range(8)]:
            place = dict(z=rng.randrange(16), x=8 * rng.randrange(64), y=8 * rng.randrange(64))
            step = call(VECFP, 2, alu=alu, widths=widths, several=1, four=four, value=cast, **place)
            steps += [ignored(rng, step, *range(35, 41), *([24] if four else []), *VECFP_IGNORED)]
        for z, m, n in ((35, 0, 0), (37, 0, 6), (39, 1, 3), (9, 2, 3)):
            step = call(VECFP, 1, alu=4, widths=widths, several=1, z=z, mode=m, value=n, x=4 * z, y=8 * z)
            steps += [ignored(rng, step, 37, *VECFP_IGNORED)]
    return trace(float_registers(rng, 32, 64), steps)


def fms64_forms(rng):
    """fms64 in vector and matrix form, in each of its operations, at enables that begin, end or miss the lanes."""
    enables = [(0, 0), (0, 1), (0, 2), (0, 3), (1, 0), (1, 7), (1, 8), (1, 31), (2, 0), (2, 3), (2, 8), (2, 31), (3, 0), (3, 3), (3, 8), (3, 31)]
    steps = []
    for vector, skips in [(vector, skips) for vector in (0, 1) for skips in (2, 3, 4, 5, 6, 7)]:
        for x_mode, x_value in rng.sample(enables, 6):
            y_mode, y_value = rng.choice(enables)
            step = call(FMS64, rng.choice((1, 2)), vector=vector, skips=skips, x_mode=x_mode, x_value=x_value, y_mode=y_mode, y_value=y_value,
                        z=rng.randrange(64), x=rng.choice((8, 1)) * rng.randrange(64), y=rng.choice((8, 1)) * rng.randrange(64))
            steps += [ignored(rng, step, *FMS64_IGNORED)]
    return trace(float_registers(rng, 64), steps)


def floats(rng):
    for name, width in (("single", 32), ("double", 64)):
        yield from ((f"floats_{name}_{mode}", all_pairs(width, mode)) for mode in (4, 10, 11, 12))
    yield from (("fms64_pairs", fms64_pairs()), ("fms64", fms64_forms(rng)), ("float_answers", float_answers(rng)))
    yield from (("float_masks", float_masks(rng)), ("float_vectors", float_vectors(rng)))


def any_step(rng):
    """Random bits, but seldom a step that the table turns away, and seldom one that forgets the old Z."""
    op, generation = rng.getrandbits(64), 1 + rng.getrandbits(1)
    if rng.randrange(4) == 0:
        return MAC16, generation, op & ~(1 << 27) if rng.randrange(8) else op
    if rng.randrange(16) == 0:
        return VECINT, generation, op
    alu = rng.choice((0, 1, 2, 3, 0, 1, 2, 3, 5, 6, 10, 11, 12, 4))
    op = op & ~(1023 << 47) | alu << 47
    return VECINT, 2 if alu >= 10 else generation, op if alu == 4 else op & ~(15 << 27)


def changed(file, at, new, size=1):
    return file[:at] + new.to_bytes(size, "little") + file[at + size:]


def small_registers():
    """3 and 2 in the first lanes of X and Y, so that a product changes row 0 of Z."""
    registers = bytearray(REGISTERS)
    registers[0], registers[512] = 3, 2
    return registers


def damaged():
    """Files that are refused by their table or for want of one: by one change to a file of three steps, or by their length."""
    good = trace(bytes(REGISTERS), [call(MAC16, 1, vector=1)] * 3)
    yield from (("short_0", b""), ("short_27", good[:27]), ("count_1", changed(good, 0, 1)))
    yield from (("count_high_byte", changed(good, 3, 1)), ("count_3", changed(good, 0, 3)))
    for entry, at, offset, length in (("first", 4, 28, REGISTERS), ("second", 16, 5148, 48)):
        yield from ((f"{entry}_kind", changed(good, at, 3)), (f"{entry}_zero", changed(good, at + 2, 1)))
        yield f"{entry}_offset", changed(good, at + 4, offset + 1, 4)
        yield f"{entry}_length_short", changed(good, at + 8, length - 1, 4)
        yield f"{entry}_length_long", changed(good, at + 8, length + 1, 4)
    for name, length in (("most_steps_length_long", 16 * MOST + 1), ("too_many_steps", 16 * MOST + 16), ("highest_length", (1 << 32) - 16)):
        yield name, changed(good, 24, length, 4)


def damaged_behind_table():
    """Files of two sections that are refused where their reading has come to, often behind lines of steps. Of several faults the first counts."""
    good = trace(small_registers(), [call(MAC16, 1, vector=1)] * 3)
    middle, last = changed(good, 5168, 1), changed(good, 5182, 1)  # the padding of step 1, and of step 2
    yield from (("contents_alone", good[:28]), ("registers_byte_short", good[:5147]), ("no_steps_and_a_byte", changed(good[:5149], 24, 0)))
    yield from (("all_records_missing", good[:5148]), ("two_records_missing", good[:5164]))
    yield "most_steps_missing", changed(good[:-16], 24, 16 * MOST, 4)
    yield from (("byte_short", good[:-1]), ("byte_long", good + bytes(1)), ("step_long", good + bytes(16)))
    yield from (("second_length_step_short", changed(good, 24, 32)), ("second_length_step_long", changed(good, 24, 64)))
    yield from (("padding_first", changed(good, 5150, 1)), ("padding_middle", middle), ("padding_last", changed(good, 5187, 128)))
    yield from (("padding_and_byte_long", changed(good, 5150, 1) + bytes(1)), ("padding_and_byte_short", middle[:-1]))
    yield from (("padding_and_record_missing", middle[:-16]), ("padding_behind_last", changed(last, 24, 32)))
    yield from (("cut_short", good[:5183]), ("cut_short_with_padding", last[:5183]), ("byte_short_with_padding", last[:-1]))


def runs():
    """Files with a step or a byte behind a whole run of steps: accepted, and refused there."""
    run = [call(MAC16, 1, vector=1)] + [(0, 0, 0)] * (RUN - 1)
    longer = trace(small_registers(), run + [call(MAC16, 1, vector=1, z=1)])
    yield from (("run_and_a_step", longer), ("run_and_a_byte", trace(small_registers(), run) + bytes(1)))
    yield from (("run_and_padding", changed(longer, len(longer) - 9, 1)), ("run_and_cut_short", longer[:-1]))


def stopped(rng):
    """Files of three sections: what is left of a run that was stopped, at its ends and between, past refused steps, and from other states."""
    yield from ((f"resumed_{place}", cut(product(), consumed)) for place, consumed in (("at_start", 0), ("in_middle", 5), ("at_end", 14)))
    kinds = [call(MAC16, 1, vector=1), (VECINT, 1, 1 << 54), (MAC16, 3, 0), (13, 1, 0), (VECINT, 1, 1 << 27)]  # done, no-op 1, refused 2, 3 and 4
    whole = trace(small_registers(), 2 * kinds)
    yield "resumed_past_refused", cut(whole, 5)
    yield from (("resumed_at_last_count", cut(whole, 5, LAST)), ("resumed_before_last_count", cut(whole, 5, LAST - 1)))
    yield "resumed_from_another_state", resumed(whole, 3, rng.randbytes(STATE))
    longer = trace(rng.randbytes(REGISTERS), [any_step(rng) for _ in range(RUN + 3)])
    last = cut(longer, RUN)
    yield from (("resumed_behind_run", last), ("resumed_behind_run_and_a_byte", last + bytes(1)), ("resumed_run_and_a_step", cut(longer, 2)))


def damaged_third():
    """Files of three sections that are refused, before any line: by changes to one of three steps, two of them consumed, or by their length."""
    good = cut(trace(bytes(REGISTERS), [call(MAC16, 1, vector=1)] * 3), 2)
    at = 5160 + 48
    above = changed(good, at, 4)
    yield from (("three_sections_in_39_bytes", good[:39]), ("four_sections_in_39_bytes", changed(good[:39], 0, 4)))
    yield from (("third_kind", changed(good, 28, 2)), ("third_zero", changed(good, 30, 1)), ("third_offset", changed(good, 32, at + 1, 4)))
    yield from (("third_length", changed(good, 36, THIRD - 1, 4)), ("third_byte_short", good[:-1]), ("third_byte_long", good + bytes(1)))
    yield from (("consumed_above", above), ("padding_consumed", changed(good, 5162, 1)))
    yield "padding_and_consumed_above", changed(above, 5162, 1)
    left = changed(good, at - 9, 1)
    yield from (("padding_left", left), ("padding_left_and_byte_short", left[:-1]), ("padding_left_and_byte_long", left + bytes(1)))
    for place, length in (("behind_table", 40), ("in_registers", 5159), ("in_steps", at - 1), ("behind_steps", at), ("behind_consumed", at + 4)):
        yield f"three_sections_cut_{place}", left[:length]
    for name, n in (("most_steps_missing", MOST), ("too_many_steps", MOST + 1), ("highest_length", (1 << 28) - 1)):
        yield f"three_sections_{name}", changed(changed(good, 24, 16 * n, 4), 32, (5160 + 16 * n) % (1 << 32), 4)


def stored():
    rng = random.Random(14)
    yield "product", product()
    yield "no_steps", trace(rng.randbytes(REGISTERS), [])
    there, back = call(MAC16, 1, vector=1, z=9), call(VECINT, 1, alu=1, x_signed=1, y_signed=1, z=9)
    yield "changed_back", trace(rng.randbytes(REGISTERS), [there, back])
    yield "answers", answers(rng)
    yield "whole_run", trace(rng.randbytes(REGISTERS), [any_step(rng) for _ in range(RUN)])
    yield "mixed_widths", mixed_widths(rng)
    yield "indexed_loads", indexed_loads(rng)
    yield from damaged()
    yield from damaged_behind_table()
    yield from runs()
    yield from stopped(rng)
    yield from damaged_third()
    yield from floats(random.Random(19))


def write(crate, traces, named, unread):
    """A program's files, arguments and output: for each file its name, where it is printed, and its text. A file that cannot be read has none."""
    home = pathlib.Path("crates", crate)
    for name, file in traces:
        (home / "data" / name).write_bytes(file)
    texts = [(name, text(file)) for name, file in traces] + [(name, "") for name in unread]
    (home / "args").write_text("".join(name + "\n" for name, _ in texts))
    (home / "stdout").write_text("".join((name + "\n" if named else "") + lines for name, lines in texts))


if __name__ == "__main__":
    write("amx_trace", [("sample.trace", trace(small_registers(), [(MAC16, 1, 1 << 63), (VECINT, 1, 1 << 54)]))], False, [])
    write("traces", [(name + ".trace", file) for name, file in stored()], True, ["missing.trace", "."])
