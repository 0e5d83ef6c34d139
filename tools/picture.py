#!/usr/bin/env python3
"""Draws what a script for a set of boxes did (docs/FORMATS.md), from it and what weekbook or setbook wrote of it:

    python3 tools/picture.py reading|order bench|sheet SCRIPT OUTPUT > PICTURE.svg

It runs nothing and knows no rules. It walks the commands only to see where the books were asked for. The output does
not say which command was refused, so the refusals between two books stand in their order, at even distances.
"""
import sys
from collections import namedtuple
from pathlib import Path
from xml.sax.saxutils import escape

ENTRY = {"reading": 8, "order": 9}
SHEET = 512

# The meaning of each number that a script can give.
REFUSALS = {
    8: "sender", 10: "range", 11: "entry", 12: "past", 13: "future", 14: "held", 15: "other", 16: "full", 17: "booked",
    18: "over", 19: "begun",
}


# The script and the output

# A command's place is its number in the script. Its box is that of a `p`.
Command = namedtuple("Command", "letter box")
Book = namedtuple("Book", "boxes heading pages")
# A book behind its command: the box, its place, the number of runs before it, and its pages as their lines.
Written = namedtuple("Written", "box place runs pages")


def command_length(script, at, entry):
    """How many bytes the sound command that begins here has."""
    if script[at:at + 1] == b"x":
        operands = {"S": 1 + entry, "E": 2 + entry, "R": 2 + entry, "H": 2 + entry, "V": 3, "A": 3, "C": 3, "F": 2}
        return 4 + operands[chr(script[at + 3])]
    return {"s": 2 + entry, "o": 2, "p": 2, "q": 1}[chr(script[at])]


def commands(script, entry, end):
    """The commands before the byte at which the run ended."""
    found = []
    at = 0
    while at < end:
        found.append(Command(chr(script[at]), script[at + 1] if at + 1 < len(script) else None))
        at += command_length(script, at, entry)
    return found


def events(output):
    """What was written, in order: a refusal's number or a book; and the byte of the fault, or None."""
    found, fault = [], None
    lines = iter(output.splitlines())
    for line in lines:
        word, *numbers = line.split(";")
        if word == "refused":
            found.append(int(numbers[0]))
        elif word == "script":
            fault = int(numbers[0])
        else:
            boxes, pages = map(int, numbers)
            found.append(Book(boxes, next(lines), [next(lines) for _ in range(pages)]))
    return found, fault


def settle(walked, found):
    """The books with their places, and the refusals as pairs of a place and a number."""
    asked = [place for place, command in enumerate(walked) if command.letter == "p"]
    if len(asked) != sum(isinstance(event, Book) for event in found):
        sys.exit("picture: the output has not the books that the script asks for")
    books, refusals, waiting, before = [], [], [], -1
    for event in [*found, None]:
        if isinstance(event, int):
            waiting.append(event)
            continue
        place = len(walked) if event is None else asked[len(books)]
        step = (place - before) / (len(waiting) + 1)
        refusals += [(before + step * count, number) for count, number in enumerate(waiting, 1)]
        waiting, before = [], place
        if event is not None:
            runs = sum(command.letter == "q" for command in walked[:place])
            books.append(Written(walked[place].box, place, runs, event.pages))
    return books, refusals


def longest(books, runs):
    """The pages of the longest book that was written before another run. Books alter in runs alone."""
    return max((book.pages for book in books if book.runs <= runs), key=len, default=[])


def standing(book, books):
    pages = longest(books, book.runs)
    if book.pages == pages:
        return "level"
    return "behind" if book.pages == pages[:len(book.pages)] else "parted"


# The picture

WIDTH, LEFT, RIGHT, ROW = 760, 92, 736, 24
INK, GREY, PALE, BLUE, ORANGE, PURPLE = "#222222", "#aaaaaa", "#dddddd", "#0b5394", "#f4b04f", "#8e1558"

# How far the numbers of an axis lie apart.
STEPS = [digit * 10 ** power for power in range(9) for digit in (1, 2, 5)]


def across(value, number):
    """Where the middle of the value's column is, of so many columns."""
    return LEFT + 8 + (value + 0.5) * (RIGHT - LEFT - 16) / number


def text(x, y, words, anchor="start", colour=INK, more=""):
    return f'<text x="{x:.1f}" y="{y:.1f}" text-anchor="{anchor}" fill="{colour}"{more}>{escape(words)}</text>'


def halo(x, y, words, anchor):
    """Text that stays readable on a line."""
    return text(x, y, words, anchor, more=' stroke="white" stroke-width="4" paint-order="stroke"')


def title(y, words):
    return text(LEFT, y, words, more=' font-weight="bold"')


def line(x, y, to_x, to_y, colour=PALE, more=""):
    return f'<line x1="{x:.1f}" y1="{y:.1f}" x2="{to_x:.1f}" y2="{to_y:.1f}" stroke="{colour}"{more}/>'


def square(x, y, words, colour, inside):
    shape = f'<rect x="{x - 9:.1f}" y="{y - 9:.1f}" width="18" height="18" fill="{colour}"/>'
    return shape + text(x, y + 4, words, "middle", inside)


def disc(x, y, words):
    return f'<circle cx="{x:.1f}" cy="{y:.1f}" r="10" fill="{BLUE}"/>' + text(x, y + 4, words, "middle", "white")


def diamond(x, y, words):
    corners = f"{x:.1f},{y - 12:.1f} {x + 12:.1f},{y:.1f} {x:.1f},{y + 12:.1f} {x - 12:.1f},{y:.1f}"
    return f'<polygon points="{corners}" fill="{PURPLE}"/>' + text(x, y + 4, words, "middle", "white")


def cross(x, y):
    return f'<path d="M{x - 4:.1f} {y - 4:.1f}l8 8m0 -8l-8 8" stroke="{PURPLE}" stroke-width="2.5"/>'


def mark(x, y, book, books):
    count = str(len(book.pages))
    stands = standing(book, books)
    if stands == "level":
        return disc(x, y, count)
    return square(x, y, count, ORANGE, INK) if stands == "behind" else diamond(x, y, count)


def axis(y, number, name):
    """The numbers below a panel of so many columns."""
    step = next(step for step in STEPS if number <= 14 * step)
    parts = [line(LEFT, y, RIGHT, y, INK)]
    for value in range(0, number, step):
        x = across(value, number)
        parts += [line(x, y, x, y + 4, INK), text(x, y + 17, str(value), "middle")]
    return parts + [text((LEFT + RIGHT) / 2, y + 34, name, "middle")]


def pages_panel(y, heading, pages):
    """A row for each page, and its mark at its epoch."""
    number = max([int(page.split(";")[0]) for page in pages] + [9]) + 1
    columns = heading.split(";", 1)[1] if pages else "none"
    parts = [title(y, f"Pages of the longest book: {columns}")]
    for place, page in enumerate(pages):
        epoch, queue, rest = page.split(";", 2)
        x, row = across(int(epoch), number), y + ROW * (place + 1)
        parts += [line(LEFT, row, RIGHT, row), text(LEFT - 10, row + 4, f"page {place}", "end")]
        parts += [square(x, row, queue, BLUE, "white")]
        side, anchor = (14, "start") if x < 500 else (-14, "end")
        parts += [halo(x + side, row + 4, f"{queue};{rest}", anchor)]
    return parts + axis(y + ROW * (len(pages) + 1), number, "epoch")


def books_panel(y, boxes, books, number):
    """A row for each box, and a mark with the number of pages where its book was written."""
    parts = [title(y, "Books written, with their number of pages")]
    for box in range(boxes):
        row = y + ROW * (box + 1)
        parts += [line(LEFT, row, RIGHT, row), text(LEFT - 10, row + 4, f"box {box}", "end")]
    parts += [mark(across(book.place, number), y + ROW * (book.box + 1), book, books) for book in books]
    return parts


def refusals_panel(y, refusals, number):
    """A row for each number that was given."""
    given = sorted({refusal for _, refusal in refusals})
    parts = [title(y, "Refused" if given else "Refused: nothing")]
    for at, refusal in enumerate(given, 1):
        row = y + ROW * at
        parts += [line(LEFT, row, RIGHT, row)]
        parts += [text(LEFT - 10, row + 4, f"{refusal} {REFUSALS[refusal]}", "end")]
        parts += [cross(across(place, number), row) for place, one in refusals if one == refusal]
    return parts


def upright(y, below, walked, fault, number):
    """What goes through all rows along the script: runs, books and the fault that ended it."""
    parts = []
    for place, command in enumerate(walked):
        if command.letter in ("q", "p"):
            x = across(place, number)
            parts += [line(x, y, x, below, PALE if command.letter == "q" else BLUE)]
    if fault is not None:
        x = across(len(walked), number)
        parts += [line(x, y, x, below, PURPLE, ' stroke-dasharray="5 3" stroke-width="2"')]
        parts += [text(RIGHT, y - 8, f"fault at byte {fault}", "end", PURPLE)]
    return parts


def legend(y):
    samples = [
        (square, ("2", BLUE, "white"), "a page, with the box whose queue it came from"),
        (disc, ("6",), "a book that is level with the longest so far"),
        (square, ("4", ORANGE, INK), "a book that is behind: the longest begins with it"),
        (diamond, ("4",), "a book that has parted from the longest"),
        (cross, (), "a refusal: between two books only its order is known"),
    ]
    parts = []
    for at, (shape, inside, words) in enumerate(samples):
        x, row = 34 + 346 * (at // 3), y + 28 * (at % 3)
        parts += [shape(x, row, *inside), text(x + 18, row + 4, words)]
    return parts + [line(380, y + 46, 380, y + 66, GREY), text(398, y + 60, "q: the set runs")]


def picture(name, walked, found, fault):
    books, refusals = settle(walked, found)
    first = next((event for event in found if isinstance(event, Book)), Book(0, ";", []))
    pages = longest(books, len(walked))
    number = len(walked) + (fault is not None) or 1
    top = 66
    along = top + ROW * (len(pages) + 1) + 70
    refused = along + ROW * (first.boxes + 1) + 20
    bottom = refused + ROW * (len({number for _, number in refusals}) + 1)
    parts = [text(LEFT, 28, f"{name}: pages, books and refusals", more=' font-size="16" font-weight="bold"')]
    parts += pages_panel(top, first.heading, pages)
    parts += upright(along + 8, bottom, walked, fault, number)
    parts += books_panel(along, first.boxes, books, number)
    parts += refusals_panel(refused, refusals, number)
    parts += axis(bottom, number, "command of the script, counted from 0")
    parts += legend(bottom + 66)
    return svg(bottom + 140, parts)


def svg(height, parts):
    head = f'<svg xmlns="http://www.w3.org/2000/svg" width="{WIDTH}" height="{height}" viewBox="0 0 {WIDTH} {height}"'
    head += ' font-family="sans-serif" font-size="12">'
    return "\n".join([head, f'<rect width="{WIDTH}" height="{height}" fill="white"/>', *parts, "</svg>"]) + "\n"


def main():
    kind, coin, script, output = sys.argv[1:]
    found, fault = events(Path(output).read_text())
    data = Path(script).read_bytes()[SHEET if coin == "sheet" else 0:]
    walked = commands(data, ENTRY[kind], len(data) if fault is None else fault)
    sys.stdout.write(picture(Path(script).name, walked, found, fault))


if __name__ == "__main__":
    main()
