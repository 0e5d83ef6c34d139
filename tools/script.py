#!/usr/bin/env python3
"""Writes the bytes of a script for a set of boxes (docs/FORMATS.md) that a text spells, one command a line:

    python3 tools/script.py reading|order < TEXT > SCRIPT

The scripts of examples/ are made so, each from the text of the same name.

    s 0 12 7 1 3400    box 0 submits the entry with these columns
    o 0,1,2            boxes 0, 1 and 2 open: a command with several boxes is given to each
    x 1 3 V 0 0 1      box 1 hears a statement in box 3's name: its letter and its operands
    p 0                box 0's book is written
    q                  the set runs
    ! 5A 00            these bytes, in hexadecimal
    # nothing          so is what stands behind a # in any other line
"""
import sys

# How many bytes each column of an entry has.
ENTRIES = {"reading": [2, 1, 1, 4], "order": [1, 2, 2, 4]}


def widths(entry):
    """How many bytes each operand has, behind the box or the letter of a statement."""
    widths = {"s": entry, "o": [], "p": [], "S": [1] + entry}
    for letter in "ERH":
        widths[letter] = [1, 1] + entry
    for letter in "VAC":
        widths[letter] = [1, 1, 1]
    return {**widths, "F": [1, 1]}


def spelled(letter, operands, entry):
    """A letter's operands in bytes."""
    sizes = widths(entry)[letter]
    return b"".join(int(operand).to_bytes(size, "big") for operand, size in zip(operands, sizes, strict=True))


def command(words, entry):
    """The bytes of one line."""
    letter = words[0]
    if letter == "!":
        return bytes.fromhex("".join(words[1:]))
    if letter == "q" and len(words) == 1:
        return b"q"
    if letter == "x":
        sender, said, *operands = words[2:]
        tail = bytes([int(sender)]) + said.encode() + spelled(said, operands, entry)
    else:
        tail = spelled(letter, words[2:], entry)
    return b"".join(letter.encode() + bytes([int(box)]) + tail for box in words[1].split(","))


def script(text, entry):
    lines = [line.split("#")[0].split() for line in text.splitlines()]
    return b"".join(command(words, entry) for words in lines if words)


if __name__ == "__main__":
    sys.stdout.buffer.write(script(sys.stdin.read(), ENTRIES[sys.argv[1]]))
