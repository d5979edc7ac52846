#!/usr/bin/env python3
"""Prints what bm_speed has to print where it measures nothing.

    python3 bench/expected.py > crates/bm_speed/stdout

It follows the definitions of the maps, of the pattern, of the checksum and of the transform record
by record, and has no code in common with the programs that move records.
"""

LOAD_BYTES = 1 << 16
ROW_BYTES = 1 << 12
WIDTHS = (1, 4, 8, 16, 64)
PLAN_WIDTHS = (1, 4, 8)


def pattern():
    """The bytes that are moved: the top byte of each number times 2^64 by the golden ratio."""
    return bytes(number * 11400714819323198485 % 2**64 >> 56 for number in range(LOAD_BYTES))


def checksum(data):
    """The FNV-1a hash of 64 bits."""
    value = 14695981039346656037
    for byte in data:
        value = (value ^ byte) * 1099511628211 % 2**64
    return value


def mixed(index):
    """Number `index` of the sequence splitmix64 that begins at 0."""
    z = (index + 1) * 0x9E3779B97F4A7C15 % 2**64
    z = (z ^ z >> 30) * 0xBF58476D1CE4E5B9 % 2**64
    z = (z ^ z >> 27) * 0x94D049BB133111EB % 2**64
    return z ^ z >> 31


def is_nonsingular(rows):
    """Whether no sum of some rows is 0: each, reduced by those before it, keeps a leading bit."""
    leading = {}
    for row in rows:
        while row and row.bit_length() in leading:
            row ^= leading[row.bit_length()]
        if not row:
            return False
        leading[row.bit_length()] = row
    return True


def random_rows(bits):
    """The first nonsingular matrix among those whose rows are 64 mixed numbers apart."""
    attempt = 0
    while True:
        rows = [mixed(64 * attempt + i) % 2**bits for i in range(bits)]
        if is_nonsingular(rows):
            return rows
        attempt += 1


def reversed_bits(x, bits):
    return int(format(x, f"0{bits}b")[::-1], 2)


def transposed(x, bits):
    """Row and column of entry x of a matrix of 2^(bits / 2) columns, rounded up, change places."""
    rows = bits // 2
    column, row = x % 2 ** (bits - rows), x >> (bits - rows)
    return column << rows | row


def reversed_above(x, bits):
    """The lower half of the bits, rounded down, stays, and the others are reversed."""
    low = bits // 2
    return reversed_bits(x >> low, bits - low) << low | x % 2**low


def split_columns(x, bits, count):
    """Column j of each row of 2^count records goes to piece j of the load."""
    column, row = x % 2**count, x >> count
    return column << (bits - count) | row


def interleaved(x, bits):
    """Bit i of the column becomes bit 2i, and bit i of the row bit 2i + 1."""
    columns = bits - bits // 2
    column, row = x % 2**columns, x >> columns
    return sum((column >> i & 1) << 2 * i | (row >> i & 1) << 2 * i + 1 for i in range(columns))


def places(name, bits):
    """The place of each number by the map of this name."""
    numbers = range(1 << bits)
    if name == "random":
        rows = random_rows(bits)
        return [sum((row & x).bit_count() % 2 << i for i, row in enumerate(rows)) for x in numbers]
    one = {
        "identity": lambda x: x,
        "gray": lambda x: x ^ x >> 1,
        "transpose": lambda x: transposed(x, bits),
        "bit-reversal": lambda x: reversed_bits(x, bits),
        "leading-identity": lambda x: reversed_above(x, bits),
        "32-streams": lambda x: split_columns(x, bits, 5),
        "256-streams": lambda x: split_columns(x, bits, 8),
        "morton": lambda x: interleaved(x, bits),
    }[name]
    return [one(x) for x in numbers]


def moved(data, name, width):
    """The records, each at its place."""
    bits = (LOAD_BYTES // width).bit_length() - 1
    records = [None] * (1 << bits)
    for x, place in enumerate(places(name, bits)):
        records[place] = data[x * width : x * width + width]
    return b"".join(records)


# Of each transform what it makes of the numbers at two addresses without and with a bit, and which
# bits it takes: each, or each second one.
KERNELS = {
    "butterflies": (lambda u, v: (u + v, u - v), 1),
    "sums": (lambda u, v: (u, u + v), 1),
    "differences": (lambda u, v: (u, v - u), 1),
    "even-sums": (lambda u, v: (u, u + v), 2),
}


def transformed(data, name, kernel, step):
    """The transform of numbers of 8 bytes, of which number x stands at its place by the map."""
    bits = (LOAD_BYTES // 8).bit_length() - 1
    where = places(name, bits)
    at_places = [int.from_bytes(data[8 * i : 8 * i + 8], "little") for i in range(1 << bits)]
    numbers = [at_places[place] for place in where]
    for i in range(0, bits, step):
        for x in range(1 << bits):
            if not x >> i & 1:
                u, v = kernel(numbers[x], numbers[x | 1 << i])
                numbers[x], numbers[x | 1 << i] = u % 2**64, v % 2**64
    for place, number in zip(where, numbers):
        at_places[place] = number
    return b"".join(number.to_bytes(8, "little") for number in at_places)


def print_line(act, name, width, data):
    sizes = f"{LOAD_BYTES >> 10} {ROW_BYTES >> 10}"
    print(f"{act} {name} {width} {sizes} {checksum(data):016x}")


def print_placings(data, names, widths):
    for name in names:
        placed = {width: moved(data, name, width) for width in widths}
        for act in ("stepped", "two-step"):
            for width in widths:
                print_line(act, name, width, placed[width])


def main():
    data = pattern()
    print_line("copy", "identity", 1, data)
    print_placings(data, ("identity", "gray", "transpose", "bit-reversal", "random"), WIDTHS)
    print_placings(data, ("leading-identity", "32-streams", "256-streams", "morton"), PLAN_WIDTHS)
    for name in ("identity", "gray", "bit-reversal"):
        for act, (kernel, step) in KERNELS.items():
            print_line(act, name, 8, transformed(data, name, kernel, step))
    for name in ("identity", "gray", "transpose", "bit-reversal", "random"):
        for width in (8, 64):
            print_line("pass", name, width, moved(data, name, width))


if __name__ == "__main__":
    main()
