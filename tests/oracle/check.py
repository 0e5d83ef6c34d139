"""The model against the worked examples of docs/ and the scripts of examples/, and the tools against what is stored.

Run by `python3 tests/oracle/check.py`. Each function below yields triples: the name of an example, what the model or
the tool makes of it, and what is written.
"""
import subprocess
import sys
from pathlib import Path

import model
import script

ROOT = Path(__file__).resolve().parents[2]

READING = model.KINDS["reading"]
ORDER = model.KINDS["order"]

X = bytes.fromhex("00 0C 07 01 00 00 0D 48")
Y = bytes.fromhex("00 22 07 01 00 00 0B 86")


def answer(call, *arguments):
    """The number with which a call declines, or else what it returns; 0 if that is nothing."""
    try:
        result = call(*arguments)
    except model.Declined as declined:
        return declined.number
    return 0 if result is None else result


def fresh(n, own=0, w=2, kind=READING):
    return model.make(kind, n, own, w)


def told(replica, senders, letter, *operands):
    """Puts one statement into the cells of these senders, the own number among them if it is named."""
    for sender in senders:
        model.fill(replica, sender, model.statement(letter, *operands))


def turns(replica, toss=model.bench):
    """The turns of a replica until it rests."""
    numbers = []
    while True:
        number = model.turn(replica, toss)
        if number == 0:
            return numbers
        numbers.append(number)


# PROTOCOL.md

NUMBERS = """
4 1 3 2 3 3
5 1 4 2 3 4
6 1 4 2 3 5
7 2 5 3 5 5
8 2 6 3 5 6
9 2 6 3 5 7
10 3 7 4 7 7
11 3 8 4 7 8
12 3 8 4 7 9
13 4 9 5 9 9
14 4 10 5 9 10
15 4 10 5 9 11
16 5 11 6 11 11
"""


def numbers():
    for row in NUMBERS.split("\n")[1:-1]:
        n, *wanted = [int(column) for column in row.split()]
        f, q = model.thresholds(n)
        yield f"N = {n}", [f, q, f + 1, 2 * f + 1, n - f], wanted
    for n in (3, 17):
        yield f"N = {n}", answer(model.thresholds, n), 1


def echoes_and_ready():
    replica = fresh(6)
    told(replica, [1, 2, 3], "E", 0, 0, X)
    yield "three equal echoes", turns(replica), []
    told(replica, [4], "E", 0, 0, X)
    yield "a fourth equal echo", turns(replica), [2]


def lowest_sender():
    replica = fresh(5)
    told(replica, [1, 4], "R", 0, 0, X)
    told(replica, [2, 3], "R", 0, 0, Y)
    yield "two entries reach f + 1", model.turn(replica, model.bench), 2
    yield "the lowest sender's", model.stated(replica, "R", 0, 0).entry, X


# Slot 0, slot 1, the candidate: a letter is the entry kept, of which B and C are in the book.
CANDIDATES = [
    ("kept, anything", "A-", 0),
    ("booked, kept", "BA", 1),
    ("booked, booked", "BC", None),
    ("booked, not kept", "B-", None),
    ("not kept, kept", "-A", None),
]


def reading_of(letter):
    return bytes([0, ord(letter), 7, 1, 0, 0, 0, 0])


def candidates():
    for name, kept, wanted in CANDIDATES:
        replica = fresh(4)
        replica.book = [model.Page(0, 1, 0, reading_of("B")), model.Page(0, 1, 1, reading_of("C"))]
        for slot in range(2):
            if kept[slot] != "-":
                told(replica, [0], "H", 0, slot, reading_of(kept[slot]))
        yield f"candidate: {name}", model.candidate(replica), wanted


def coins():
    sheet = bytearray(512)
    sheet[7] = 0x04
    yield "sheet coin", model.sheet(bytes(sheet))(3, 10), 1
    yield "sheet coin, the round before", model.sheet(bytes(sheet))(3, 9), 0
    yield "behind the sheet", model.sheet(bytes([255] * 512))(256, 0), 0
    yield "a short sheet", answer(model.sheet, bytes(511)), 24
    yield "a long sheet", answer(model.sheet, bytes(513)), 24


# The set of all confirms, the toss, whether a finish was stated, then the bit of the finish and the next bit.
CLOSES = [
    (2, 1, False, 1, 1),
    (2, 1, True, 0, 1),
    (2, 0, False, None, 1),
    (2, 0, True, 0, 1),
    (3, 0, False, None, 0),
    (3, 0, True, 0, 0),
]


def closes():
    for union, toss, before, finish, next_bit in CLOSES:
        replica = fresh(4)
        model.open_epoch(replica)
        for bit in model.SETS[union]:
            told(replica, [1, 2, 3], "V", 0, 0, bit)
        told(replica, [0, 1, 2], "C", 0, 0, union)
        if before:
            told(replica, [0], "F", 0, 0)
        model.close(replica, lambda epoch, r: toss)
        stated = model.stated(replica, "F")
        got = (None if stated is None else stated.bit, model.stated(replica, "V", 1, next_bit) is not None)
        yield f"close {union}, toss {toss}, {before}", got, (finish, True)


def values_that_grow():
    for third in (False, True):
        replica = fresh(4)
        model.open_epoch(replica)
        told(replica, [1, 2, 3], "V", 0, 0, 1)
        told(replica, [1], "V", 0, 0, 0)
        for sender, bit in ((1, 1), (2, 0), (3, 1)):
            told(replica, [sender], "A", 0, 0, bit)
        told(replica, [0], "A", 0, 0, 1)
        yield "confirm is stated", model.confirm(replica), True
        yield "confirm states {1}", model.stated(replica, "C", 0).set, 2
        for sender, byte in ((1, 2), (2, 3), (3, 2)):
            told(replica, [sender], "C", 0, 0, byte)
        if third:
            told(replica, [2], "V", 0, 0, 0)
        yield "close applies", model.close(replica, model.bench), True
        yield "the next bit", model.stated(replica, "V", 1, 0 if third else 1) is not None, True


# Turns of each exchange that has some, and then the opening.
EXCHANGES = [[1], [2], [3], "open", [8], [9], [10], [8], [9], [10], [5, 6]]

BOARD = """
45 00 00 00 0C 07 01 00 00 0D 48
52 00 00 00 0C 07 01 00 00 0D 48
48 00 00 00 0C 07 01 00 00 0D 48
46 00 01
56 00 00 01
41 00 00 01
43 00 00 02
56 00 01 01
41 00 01 01
43 00 01 02
56 00 02 01
"""

FILE = b"book;4;1\nepoch;box;slot;house;week;quantity;amount\n0;0;0;12;7;1;3400\n"


def board_bytes(replica):
    return [model.written(said) for said in model.board(replica)]


def exchange(boxes):
    """Each hears each other's whole board, and then turns until it rests: the turns of each."""
    boards = [board_bytes(box) for box in boxes]
    for hearer in boxes:
        for sender in range(len(boxes)):
            for data in boards[sender]:
                answer(model.hear, hearer, sender, data)
    return [turns(box) for box in boxes]


def exchange_with_turns(boxes):
    """Leaves out the exchanges without a turn. They end, since each fills a cell."""
    done = [[]] * len(boxes)
    while not any(done):
        done = exchange(boxes)
    return done


def page_from_start_to_end():
    boxes = [fresh(4, own) for own in range(4)]
    model.submit(boxes[0], X)
    board = [bytes.fromhex(line) for line in BOARD.split("\n")[1:-1]]
    for at, wanted in enumerate(EXCHANGES):
        if at == len(EXCHANGES) - 1:
            yield "the board of replica 2 after exchange 9", board_bytes(boxes[2]), board
        if wanted == "open":
            yield "all open", [answer(model.open_epoch, box) for box in boxes], [0] * 4
        else:
            yield f"turns {wanted}", exchange_with_turns(boxes), [wanted] * 4
    yield "its board after exchange 10", board_bytes(boxes[2]), board[:4]
    for box in boxes:
        yield f"the file of box {box.own}", model.print_book(box), FILE
        yield f"page 0 of box {box.own}", answer(model.page, box, 0), model.Page(0, 0, 0, X)
        yield f"page 1 of box {box.own}", answer(model.page, box, 1), 22


# FORMATS.md

STATEMENTS = [
    ("53 01 00 0C 07 01 00 00 0D 48", ("S", 1, X)),
    ("45 02 00 00 0C 07 01 00 00 0D 48", ("E", 2, 0, X)),
    ("56 03 0A 01", ("V", 3, 10, 1)),
    ("41 03 0A 00", ("A", 3, 10, 0)),
    ("43 03 0A 03", ("C", 3, 10, 3)),
    ("46 07 01", ("F", 7, 1)),
    ("43 00 02 04", ("C", 0, 2, 4)),
]


def statements():
    for text, wanted in STATEMENTS:
        said = answer(model.read, bytes.fromhex(text), READING.width)
        yield text, said, model.statement(*wanted)
        yield f"{text}, written", model.written(said), bytes.fromhex(text)
    yield "there is no set 4", answer(model.hear, fresh(4), 1, bytes.fromhex("43 00 02 04")), 10
    for kind, wanted in ((READING, [10, 11, 11, 11, 4, 4, 4, 3]), (ORDER, [11, 12, 12, 12, 4, 4, 4, 3])):
        yield f"lengths for {kind.names}", [model.length(letter, kind.width) for letter in "SERHVACF"], wanted


ENTRIES = [
    (READING, "00 0C 07 01 00 00 0D 48", "12;7;1;3400"),
    (READING, "00 01 01 01 00 00 00 00", "1;1;1;0"),
    (READING, "03 E7 35 03 FF FF FF FF", "999;53;3;4294967295"),
    (READING, "03 E8 07 01 00 00 0D 48", None),
    (READING, "00 0C 36 01 00 00 0D 48", None),
    (READING, "00 0C 07 04 00 00 0D 48", None),
    (ORDER, "01 00 0C 00 22 00 00 00 64", "1;12;34;100"),
    (ORDER, "02 00 0C 00 00 00 00 00 00", "2;12;0;0"),
    (ORDER, "01 00 0C 00 0C 00 00 00 64", None),
    (ORDER, "01 00 0C 00 22 00 00 00 00", None),
    (ORDER, "02 00 0C 00 00 00 00 00 01", None),
    (ORDER, "03 00 0C 00 22 00 00 00 64", None),
]


def entries():
    for kind, text, wanted in ENTRIES:
        data = bytes.fromhex(text)
        columns = ";".join(str(column) for column in kind.columns(data)) if kind.is_entry(data) else None
        yield text, columns, wanted


SCRIPTS = [
    (
        "73 00 00 0C 07 01 00 00 0D 48  71  6F 00  6F 01  6F 02  6F 03  71  70 02",
        FILE,
    ),
    (
        "73 02 00 00 07 01 00 00 0D 48  78 01 01 46 00 01  78 00 03 46 09 01  6F 04",
        b"refused;11\nrefused;8\nrefused;13\nscript;22\n",
    ),
]


def files_and_scripts():
    yield "the worked file has 69 bytes", len(FILE), 69
    yield "a book of orders", model.print_book(fresh(7, kind=ORDER)), b"book;7;0\nepoch;box;slot;kind;from;to;amount\n"
    for text, wanted in SCRIPTS:
        for arguments in (("week",), ("set", "reading", "4", "2", "bench")):
            yield f"{arguments}: {text}", script.answer(arguments, bytes.fromhex(text)), (wanted, b"", 0)


# REFUSALS.md

def heard_at_epoch(epoch, sender, data):
    replica = fresh(4)
    told(replica, [1], "E", 0, 0, X)
    for _ in range(epoch):
        model.leave(replica)
    return answer(model.hear, replica, sender, data)


FIRST_DECIDES = [
    ("no bytes, from the own number", 0, 0, "", 8),
    ("no bytes", 0, 1, "", 7),
    ("46 07, epoch 7 not yet reached", 0, 1, "46 07", 7),
    ("46 07 02 00", 0, 1, "46 07 02 00", 9),
    ("43 00 02 04, epoch 0 past", 1, 1, "43 00 02 04", 10),
    ("46 07 02, epoch 7 not yet reached", 0, 1, "46 07 02", 10),
    ("slot W and no entry", 0, 1, "53 02 00 00 07 01 00 00 0D 48", 10),
    ("no entry, the cell filled", 0, 1, "45 00 00 00 00 07 01 00 00 0D 48", 11),
    ("the same entry, the cell filled", 0, 1, "45 00 00 00 0C 07 01 00 00 0D 48", 14),
    ("another entry, the cell filled", 0, 1, "45 00 00 00 22 07 01 00 00 0B 86", 15),
    ("a vote when the week is over", 256, 1, "56 FF 00 00", 12),
]


def refusals():
    for name, epoch, sender, text, wanted in FIRST_DECIDES:
        yield name, heard_at_epoch(epoch, sender, bytes.fromhex(text)), wanted
    for arguments, wanted in (((3, 3, 0), 1), ((4, 4, 0), 2), ((4, 3, 0), 3), ((16, 15, 17), 3)):
        n, own, w = arguments
        yield f"make {arguments}", answer(model.make, READING, n, own, w), wanted


# examples/

EXAMPLES = ROOT / "examples"


def tool(name, *arguments, data=b""):
    """What a tool writes."""
    command = [sys.executable, ROOT / "tools" / name, *arguments]
    return subprocess.run(command, input=data, stdout=subprocess.PIPE, check=True).stdout


def stored_scripts():
    for stored in sorted([*EXAMPLES.glob("*.week"), *EXAMPLES.glob("*.set")]):
        arguments = ("week",) if stored.suffix == ".week" else ("set", *stored.name.split(".")[1:5])
        kind = "reading" if arguments == ("week",) else arguments[1]
        spelled = tool("script.py", kind, data=stored.with_suffix(".txt").read_bytes())
        yield f"{stored.name} from its text", spelled, stored.read_bytes()
        wanted = stored.with_suffix(".book").read_bytes()
        yield stored.name, script.answer(arguments, stored.read_bytes()), (wanted, b"", 0)


def stored_picture():
    drawn = tool("picture.py", "reading", "bench", EXAMPLES / "market.week", EXAMPLES / "market.book")
    yield "the picture of the week", drawn, (ROOT / "docs" / "week.svg").read_bytes()


PAGES = [
    numbers, echoes_and_ready, lowest_sender, candidates, coins, closes, values_that_grow, page_from_start_to_end,
    statements, entries, files_and_scripts, refusals, stored_scripts,
    stored_picture,
]


def main():
    tried = 0
    differ = 0
    for examples in PAGES:
        for name, got, wanted in examples():
            tried += 1
            if got != wanted:
                differ += 1
                print(f"{examples.__name__}: {name}\n  made    {got}\n  written {wanted}")
    print(f"{tried} examples, {differ} differ")
    sys.exit(1 if differ else 0)


if __name__ == "__main__":
    main()
