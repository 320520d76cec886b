#!/usr/bin/env python3
"""Takes the mark of 64-bit limits from the table of a WebAssembly module, which older engines refuse.

narrow_table.py FROM TO. Right only where nothing calls through the table; a module with such a call is refused."""
import sys


def number(data, at):
    """An unsigned LEB128 number, and what stands behind it."""
    value = shift = 0
    while True:
        byte = data[at]
        value |= (byte & 127) << shift
        at, shift = at + 1, shift + 7
        if byte < 128:
            return value, at


def sections(data):
    """Each section's kind, the place of its content, and its end."""
    at = 8
    while at < len(data):
        size, start = number(data, at + 1)
        yield data[at], start, start + size
        at = start + size


def main():
    source, target = sys.argv[1:]
    with open(source, "rb") as file:
        data = bytearray(file.read())
    found = {kind: (start, end) for kind, start, end in sections(data) if kind}
    # Section 9 has the table's elements: without one every entry is empty, and no call through it leads anywhere.
    if 9 in found and number(data, found[9][0])[0] != 0:
        sys.exit("narrow_table: the table of functions isn't empty")
    if 4 in found:
        count, at = number(data, found[4][0])
        if count != 1:
            sys.exit("narrow_table: there are several tables")
        data[at + 1] &= ~4
    with open(target, "wb") as file:
        file.write(data)


main()
