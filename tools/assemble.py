#!/usr/bin/env python3
"""Turn the readable form of a sheet or question into packed bytes.

    assemble.py [--hex] [FILE]

Reads FILE, or standard input without one. Writes the bytes to standard
output, or hex text with --hex. One entry a line; '#' starts a comment.

    arity name                   01
    arity data                   02
    arity tick                   03
    arity tuple 1 1              04  the parts' arities, 0 to 4 of them
    arity bind 0 1               05  name arity, arity bound over
    constructor 1 0              10  data arity, argument arity
    variable 0                   20  arity
    row variable 0               30  variable
    row apply 0 3                31  constructor, row
    row tuple 3 4 4              32  tuple arity, then 0 to 4 rows
    row bind 4 0 5               33  binding arity, variable, row
    end                          FF
    same 3 4                     40  row, row
    fresh 0 1                    41  variable, row
    shift 5 6 4294967291         42  row, row, ticks (four bytes, highest first)
    judge 2                      4F  budget (four bytes, highest first)
    bytes 01 FF                  the bytes as they stand

Numbers are base ten, except after "bytes". Only the syntax is checked, so
that faulty sheets can be written. A bad line is reported with its number;
then nothing is written and the exit code is 1.
"""
import argparse
import sys

# The words of a line, and the command byte with its number of operands.
FIXED = {
    ("arity", "name"): (0x01, 0),
    ("arity", "data"): (0x02, 0),
    ("arity", "tick"): (0x03, 0),
    ("arity", "bind"): (0x05, 2),
    ("constructor",): (0x10, 2),
    ("variable",): (0x20, 1),
    ("row", "variable"): (0x30, 1),
    ("row", "apply"): (0x31, 2),
    ("row", "bind"): (0x33, 3),
    ("end",): (0xFF, 0),
    ("same",): (0x40, 2),
    ("fresh",): (0x41, 2),
}


class BadLine(Exception):
    """A line that has no meaning; its text says why."""


def number(word, limit):
    if not (word.isascii() and word.isdigit()):
        raise BadLine(f"'{word}' is not a number")
    value = int(word)
    if value > limit:
        raise BadLine(f"{word} is above {limit}")
    return value


def byte_list(words):
    return bytes(number(word, 0xFF) for word in words)


def long_number(word):
    return number(word, 0xFFFFFFFF).to_bytes(4, "big")


def count(words, wanted):
    if len(words) != wanted:
        raise BadLine(f"{wanted} operands wanted, {len(words)} found")


def padded(words):
    if len(words) > 4:
        raise BadLine(f"at most 4 parts, {len(words)} found")
    return byte_list(words) + bytes(4 - len(words))


def raw_hex(words):
    try:
        return bytes.fromhex(" ".join(words))
    except ValueError:
        raise BadLine("not hexadecimal bytes") from None


def assemble_line(words):
    """The bytes of one line, given as its words."""
    first = words[0]
    if first == "bytes":
        return raw_hex(words[1:])
    if first == "shift":
        count(words[1:], 3)
        return b"\x42" + byte_list(words[1:3]) + long_number(words[3])
    if first == "judge":
        count(words[1:], 1)
        return b"\x4F" + long_number(words[1])
    if words[:2] == ["arity", "tuple"]:
        parts = padded(words[2:])
        return b"\x04" + bytes([len(words) - 2]) + parts
    if words[:2] == ["row", "tuple"]:
        if len(words) < 3:
            raise BadLine("a tuple row needs its arity")
        return b"\x32" + byte_list(words[2:3]) + padded(words[3:])
    for length in (2, 1):
        command = FIXED.get(tuple(words[:length]))
        if command is not None:
            byte, operands = command
            count(words[length:], operands)
            return bytes([byte]) + byte_list(words[length:])
    raise BadLine(f"no such line: {' '.join(words)}")


def assemble(text):
    """The bytes of a whole text. Raises BadLine with the line's number."""
    out = bytearray()
    for position, line in enumerate(text.splitlines(), start=1):
        words = line.split("#", 1)[0].split()
        if not words:
            continue
        try:
            out += assemble_line(words)
        except BadLine as bad:
            raise BadLine(f"line {position}: {bad}") from None
    return bytes(out)


def main():
    parser = argparse.ArgumentParser(
        description="Turn the readable form of a sheet or question into packed bytes."
    )
    parser.add_argument("--hex", action="store_true", help="write hex text")
    parser.add_argument("file", nargs="?", help="readable text; standard input without it")
    options = parser.parse_args()
    if options.file is None:
        text = sys.stdin.read()
    else:
        with open(options.file, encoding="utf-8") as source:
            text = source.read()
    try:
        packed = assemble(text)
    except BadLine as bad:
        print(f"assemble.py: {bad}", file=sys.stderr)
        return 1
    if options.hex:
        print(packed.hex(" ").upper())
    else:
        sys.stdout.buffer.write(packed)
    return 0


if __name__ == "__main__":
    sys.exit(main())
