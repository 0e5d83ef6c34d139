"""A second telling of the rules: a replica, written from docs/PROTOCOL.md, docs/FORMATS.md and docs/REFUSALS.md alone.

It shares no code with the product, and no thought but those pages. The sections stand in the order of PROTOCOL.md and
have its words. It is plain: a cell is a dict from sender to statement, a book is a list of pages.
Lent tables and output buffers are not modelled, so 4, 20, 21 and 23 do not occur.
"""
from collections import namedtuple


class Declined(Exception):
    """A call that declines, with the number of its refusal."""

    def __init__(self, number):
        super().__init__(number)
        self.number = number


def decline(number, condition):
    """One row of a table in REFUSALS.md: the number, and the condition that gives it."""
    if condition:
        raise Declined(number)


# Numbers

EPOCHS = 256  # as an epoch: the week is over
ROUNDS = 16


def thresholds(n):
    """f and Q."""
    decline(1, n < 4 or n > 16)
    f = (n - 1) // 3
    return f, (n + f) // 2 + 1


# Entries, queues and the book

Kind = namedtuple("Kind", "width names is_entry columns")


def number(data):
    return int.from_bytes(data, "big")


def reading_columns(data):
    return [number(data[0:2]), data[2], data[3], number(data[4:8])]


def is_reading(data):
    house, week, quantity, _ = reading_columns(data)
    return 1 <= house <= 999 and 1 <= week <= 53 and 1 <= quantity <= 3


def order_columns(data):
    return [data[0], number(data[1:3]), number(data[3:5]), number(data[5:9])]


def is_give(data):
    form, giving, taking, amount = order_columns(data)
    return form == 1 and 1 <= giving <= 999 and 1 <= taking <= 999 and giving != taking and amount >= 1


def is_close(data):
    form, house, _, _ = order_columns(data)
    return form == 2 and 1 <= house <= 999 and data[3:9] == bytes(6)


def is_order(data):
    return is_give(data) or is_close(data)


KINDS = {
    "reading": Kind(8, "house;week;quantity;amount", is_reading, reading_columns),
    "order": Kind(9, "kind;from;to;amount", is_order, order_columns),
}

Page = namedtuple("Page", "epoch queue slot entry")


def in_book(replica, entry):
    for one in replica.book:
        if one.entry == entry:
            return True
    return False


def candidate(replica):
    """The candidate of the queue of the current epoch: its slot, or None."""
    queue = replica.epoch % replica.n
    slot = replica.heads[queue]
    while slot < replica.w:
        have = stated(replica, "H", queue, slot)
        if have is None:
            return None
        if not in_book(replica, have.entry):
            return slot
        slot += 1
    return None


# Coins: a coin is a function from epoch and round to a bit

def bench(epoch, r):
    return (epoch + r) % 2


def sheet(data):
    decline(24, len(data) != 512)

    def toss(epoch, r):
        place = 2 * epoch + r // 8
        byte = data[place] if place < 512 else 0
        return byte >> (r % 8) & 1

    return toss


# Statements

OPERANDS = {
    "S": ("slot", "entry"),
    "E": ("queue", "slot", "entry"),
    "R": ("queue", "slot", "entry"),
    "H": ("queue", "slot", "entry"),
    "V": ("epoch", "round", "bit"),
    "A": ("epoch", "round", "bit"),
    "C": ("epoch", "round", "set"),
    "F": ("epoch", "bit"),
}
VOTES = ("V", "A", "C", "F")

# The sets of a confirm, by their byte.
SETS = {1: {0}, 2: {1}, 3: {0, 1}}


def set_byte(bits):
    for byte in SETS:
        if SETS[byte] == bits:
            return byte


# What a statement has no operand for is None.
Statement = namedtuple("Statement", "letter queue slot entry epoch round bit set", defaults=[None] * 7)


def statement(letter, *operands):
    return Statement(letter, **dict(zip(OPERANDS[letter], operands)))


def length(letter, width):
    """The length of a statement, for a kind of this width."""
    if "entry" in OPERANDS[letter]:
        return len(OPERANDS[letter]) + width
    return len(OPERANDS[letter]) + 1


def read(data, width):
    """The statement that these bytes are: what REFUSALS.md calls parse."""
    decline(7, len(data) == 0)
    letter = chr(data[0])
    decline(6, letter not in OPERANDS)
    decline(7, len(data) < length(letter, width))
    decline(9, len(data) > length(letter, width))
    if "entry" in OPERANDS[letter]:
        return statement(letter, *data[1:-width], data[-width:])
    return statement(letter, *data[1:])


def written(said):
    """The bytes of a statement."""
    data = said.letter.encode()
    for name in OPERANDS[said.letter]:
        operand = getattr(said, name)
        data += operand if name == "entry" else bytes([operand])
    return data


def cell_of(said):
    """The cell, of its sender, in which a statement is held."""
    if said.letter == "S":
        return "S", said.slot
    if said.letter in ("E", "R", "H"):
        return said.letter, said.queue, said.slot
    if said.letter == "V":
        return "V", said.round, said.bit
    if said.letter in ("A", "C"):
        return said.letter, said.round
    return ("F",)


# The state of a replica

class Replica:
    """A replica as the call make leaves it."""

    def __init__(self, kind, n, own, w):
        self.f, self.q = thresholds(n)
        decline(2, own >= n)
        decline(3, w < 1 or w > 16)
        self.kind = kind
        self.n, self.own, self.w = n, own, w
        self.epoch = 0
        self.stage = "unopened"  # or "open", or "awaiting its page"
        self.round = None  # of an open epoch
        self.closed = False  # the mark of round 15
        self.heads = [0] * n
        self.book = []
        self.past = []  # own finishes of past epochs
        self.cells = {}  # what is held: by cell, then by sender


def make(kind, n, own, w):
    return Replica(kind, n, own, w)


def held(replica, *cell):
    """What the senders have in this cell: a dict from sender to statement."""
    return replica.cells.get(cell, {})


def stated(replica, *cell):
    """What this replica itself has in this cell, or None."""
    return held(replica, *cell).get(replica.own)


def fill(replica, sender, said):
    replica.cells.setdefault(cell_of(said), {})[sender] = said


def state(replica, letter, *operands):
    fill(replica, replica.own, statement(letter, *operands))


def begin_round(replica, r, bit):
    replica.round = r
    state(replica, "V", replica.epoch, r, bit)


def leave(replica):
    """Leaving an epoch."""
    finish = stated(replica, "F")
    if finish is not None:
        replica.past.append(finish)
    for cell in list(replica.cells):
        if cell[0] in VOTES:
            del replica.cells[cell]
    replica.epoch += 1
    replica.stage = "unopened"
    replica.round = None
    replica.closed = False


# The board

def slots(replica):
    """All slots of queue 0, then all of queue 1, and so on."""
    return [(queue, slot) for queue in range(replica.n) for slot in range(replica.w)]


def on_board(replica, cells):
    """What the replica states in these cells, in their order."""
    found = [stated(replica, *cell) for cell in cells]
    return [said for said in found if said is not None]


def board(replica):
    """The statements of the board, in order."""
    sends = [("S", slot) for slot in range(replica.w)]
    echoes = [("E", queue, slot) for queue, slot in slots(replica)]
    readies = [("R", queue, slot) for queue, slot in slots(replica)]
    haves = [("H", queue, slot) for queue, slot in slots(replica)]
    votes = [("F",)]
    for k in range(ROUNDS):
        votes += [("V", k, 0), ("V", k, 1), ("A", k), ("C", k)]
    return on_board(replica, sends + echoes + readies + haves) + replica.past + on_board(replica, votes)


# The ten turns: each does what it can do and tells whether it applied

def equal_from(replica, least, letter, queue, slot):
    """The entry that `least` senders or more hold in this slot, the lowest sender's if there are several, or None."""
    there = held(replica, letter, queue, slot)
    entries = [there[sender].entry for sender in sorted(there)]
    for entry in entries:
        if entries.count(entry) >= least:
            return entry
    return None


def echo(replica):
    for queue, slot in slots(replica):
        send = held(replica, "S", slot).get(queue)
        if send is not None and stated(replica, "E", queue, slot) is None:
            state(replica, "E", queue, slot, send.entry)
            return True
    return False


def ready(replica):
    for queue, slot in slots(replica):
        if stated(replica, "R", queue, slot) is None:
            entry = equal_from(replica, replica.q, "E", queue, slot)
            if entry is None:
                entry = equal_from(replica, replica.f + 1, "R", queue, slot)
            if entry is not None:
                state(replica, "R", queue, slot, entry)
                return True
    return False


def keep(replica):
    for queue, slot in slots(replica):
        if stated(replica, "H", queue, slot) is None:
            entry = equal_from(replica, 2 * replica.f + 1, "R", queue, slot)
            if entry is None:
                entry = equal_from(replica, replica.f + 1, "H", queue, slot)
            if entry is not None:
                state(replica, "H", queue, slot, entry)
                return True
    return False


def finished_from(replica, least):
    """The bit of which `least` senders or more hold a finish, bit 0 before bit 1, or None."""
    bits = [finish.bit for finish in held(replica, "F").values()]
    for bit in (0, 1):
        if bits.count(bit) >= least:
            return bit
    return None


def follow(replica):
    bit = finished_from(replica, replica.f + 1)
    if replica.epoch == EPOCHS or stated(replica, "F") is not None or bit is None:
        return False
    state(replica, "F", replica.epoch, bit)
    return True


def decide(replica):
    bit = finished_from(replica, 2 * replica.f + 1)
    if replica.epoch == EPOCHS or replica.stage == "awaiting its page" or bit is None:
        return False
    if bit == 0:
        leave(replica)
    else:
        replica.stage = "awaiting its page"
        replica.round = None
        replica.closed = False
    return True


def write(replica):
    if replica.stage != "awaiting its page":
        return False
    slot = candidate(replica)
    if slot is None:
        return False
    queue = replica.epoch % replica.n
    entry = stated(replica, "H", queue, slot).entry
    replica.book.append(Page(replica.epoch, queue, slot, entry))
    replica.heads[queue] = slot + 1
    leave(replica)
    return True


def values(replica, k):
    """The bits of which 2f + 1 senders or more hold a value in round k, computed anew."""
    return {bit for bit in (0, 1) if len(held(replica, "V", k, bit)) >= 2 * replica.f + 1}


def second_value(replica):
    if replica.stage != "open":
        return False
    for k in range(replica.round + 1):
        for bit in (0, 1):
            enough = len(held(replica, "V", k, bit)) >= replica.f + 1
            if enough and stated(replica, "V", k, bit) is None:
                state(replica, "V", replica.epoch, k, bit)
                return True
    return False


def seen(replica):
    r = replica.round
    if replica.stage != "open" or stated(replica, "A", r) is not None or not values(replica, r):
        return False
    state(replica, "A", replica.epoch, r, min(values(replica, r)))
    return True


def confirm(replica):
    r = replica.round
    if replica.stage != "open" or stated(replica, "A", r) is None or stated(replica, "C", r) is not None:
        return False
    within = [said for said in held(replica, "A", r).values() if said.bit in values(replica, r)]
    if len(within) < replica.n - replica.f:
        return False
    state(replica, "C", replica.epoch, r, set_byte(values(replica, r)))
    return True


def close(replica, toss):
    r = replica.round
    if replica.stage != "open" or stated(replica, "C", r) is None or replica.closed:
        return False
    confirms = [SETS[said.set] for said in held(replica, "C", r).values()]
    within = [bits for bits in confirms if bits <= values(replica, r)]
    if len(within) < replica.n - replica.f:
        return False
    end_round(replica, set().union(*within), toss(replica.epoch, r))
    return True


def end_round(replica, union, t):
    """What Close does, with the union U of the sets and the toss t."""
    if union == {t} and stated(replica, "F") is None:
        state(replica, "F", replica.epoch, t)
    next_bit = t if union == {0, 1} else min(union)
    if replica.round == ROUNDS - 1:
        replica.closed = True
    else:
        begin_round(replica, replica.round + 1, next_bit)


# The calls

def take(replica, sender, said):
    """What hear does with a statement that has the form of one and a sound sender."""
    decline(10, said.queue is not None and said.queue >= replica.n)
    decline(10, said.slot is not None and said.slot >= replica.w)
    decline(10, said.round is not None and said.round >= ROUNDS)
    decline(10, said.bit is not None and said.bit > 1)
    decline(10, said.set is not None and said.set not in SETS)
    decline(11, said.entry is not None and not replica.kind.is_entry(said.entry))
    decline(12, said.epoch is not None and said.epoch < replica.epoch)
    decline(13, said.epoch is not None and said.epoch > replica.epoch)
    before = held(replica, *cell_of(said)).get(sender)
    decline(14, before == said)
    decline(15, before is not None)
    fill(replica, sender, said)


def hear(replica, sender, data):
    decline(8, sender >= replica.n or sender == replica.own)
    take(replica, sender, read(data, replica.kind.width))


def submit(replica, data):
    decline(7, len(data) < replica.kind.width)
    decline(9, len(data) > replica.kind.width)
    decline(11, not replica.kind.is_entry(data))
    unused = [slot for slot in range(replica.w) if stated(replica, "S", slot) is None]
    decline(16, not unused)
    decline(17, in_book(replica, data))
    state(replica, "S", unused[0], data)


def open_epoch(replica):
    decline(18, replica.epoch == EPOCHS)
    decline(19, replica.stage != "unopened")
    bit = 0 if candidate(replica) is None else 1
    replica.stage = "open"
    begin_round(replica, 0, bit)


def turn(replica, toss):
    """The number of the first turn that applies, which is done, or 0 for rest."""
    rules = [echo, ready, keep, follow, decide, write, second_value, seen, confirm]
    for at, rule in enumerate(rules, 1):
        if rule(replica):
            return at
    if close(replica, toss):
        return 10
    return 0


def page(replica, place):
    decline(22, place >= len(replica.book))
    return replica.book[place]


def print_book(replica):
    """The file of the book."""
    lines = [f"book;{replica.n};{len(replica.book)}", f"epoch;box;slot;{replica.kind.names}"]
    for one in replica.book:
        columns = [one.epoch, one.queue, one.slot] + replica.kind.columns(one.entry)
        lines.append(";".join(str(column) for column in columns))
    return "".join(line + "\n" for line in lines).encode()
