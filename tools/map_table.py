#!/usr/bin/env python3
"""Writes the expected outcome for each of the 256 map bytes of a trace record.

It follows docs/FORMATS.md and none of the code. After the map byte stand the bytes 1, 2, 3, .. 13, so that the
operator, where its bit stands, is 1, and a cell at place k is k + 256 * (k + 1).

    python3 tools/map_table.py > crates/trace_tests/src/cases.rt
"""

READ_BITS = {"00000": 0, "00001": 1, "00011": 2, "00111": 3, "01111": 4, "11111": 5}


def outcome(byte):
    """The refusal's number, or 0; then the record's size and its text."""
    bits = format(byte, "08b")
    if bits[0] == "1":
        return 41, 0, ""
    if bits[1:6] not in READ_BITS:
        return 42, 0, ""
    reads = READ_BITS[bits[1:6]]
    has_written, has_operator = bits[6] == "1", bits[7] == "1"
    if not has_written and reads == 0:
        return 43, 0, ""
    tail = list(range(1, 14))
    size, operator = 1, 0
    if has_operator:
        operator = tail.pop(0)
        size += 1
    cells = []
    for _ in range(reads + (1 if has_written else 0)):
        low, high = tail.pop(0), tail.pop(0)
        cells.append(high << 8 | low)
        size += 2
    written = cells[0]
    read_cells = cells[1:] if has_written else cells
    text = f"op {operator}, {written} <-" + "".join(f" {c}" for c in read_cells)
    return 0, size, text


def main():
    print("//! What each map byte gives, with the bytes 1 to 13 after it. Written by tools/map_table.py.")
    print()
    print("/// By map byte: how many bytes the record has that they begin, and its text, or the number of the refusal.")
    print("// A number and no fault of the library's, since the table is worked out without it.")
    print("pub static CASES: [Result<(usize, &'static str), u8>; 256] = [")
    for byte in range(256):
        number, size, text = outcome(byte)
        if number:
            print(f"    Err({number}),")
        else:
            print(f'    Ok(({size}, "{text}")),')
    print("];")


if __name__ == "__main__":
    main()
