"""Generated scripts for weekbook and setbook: `generate(seed)` gives the arguments and the input of a seed.

The commands are drawn blindly. Only the epoch in which the set may be is guessed, so that votes are not all past or
future; and entries, slots and rounds are few, so that statements meet. At the end the set runs, each box is asked what
it holds from another, and all books are written.
"""
from random import Random

from model import thresholds
from scripts import (
    NO_ORDER, NO_READING, ONES, RUN, WEEK,
    book, epochs, give, hear, open_epoch, reading, say, set_of, shut, skip, submit, twice,
)


class Draft:
    """What the commands of one script are drawn from."""

    def __init__(self, rng, kind, n, w):
        self.rng = rng
        self.kind = kind
        self.n, self.w = n, w
        self.epoch = 0
        makes = [reading] if kind == "reading" else [give, shut]
        self.entries = [rng.choice(makes)(number) for number in rng.sample(range(1, 50), rng.randint(2, 6))]


def some_box(draft):
    return draft.rng.randrange(draft.n)


def some_entry(draft):
    if draft.rng.random() < 0.04:
        return NO_READING if draft.kind == "reading" else NO_ORDER
    return draft.rng.choice(draft.entries)


def some_slot(draft):
    return draft.rng.randrange(min(draft.w, 3))


def some_vote(draft, letter):
    rng = draft.rng
    e = min(max(draft.epoch + rng.choice([0, 0, 0, 0, 0, 0, -1, 1]), 0), 255)
    if letter == "F":
        return say("F", e, rng.randrange(2))
    k = rng.choice([0, 0, 0, 0, 1, 1, 2, 3, 15, rng.randrange(16)])
    return say(letter, e, k, rng.randint(1, 3) if letter == "C" else rng.randrange(2))


def some_broadcast(draft, letter):
    if letter == "S":
        return say("S", some_slot(draft), some_entry(draft))
    return say(letter, some_box(draft), some_slot(draft), some_entry(draft))


def some_statement(draft):
    letter = draft.rng.choice("SERHVACF")
    return some_vote(draft, letter) if letter in "VACF" else some_broadcast(draft, letter)


def a_submit(draft):
    return submit(some_box(draft), some_entry(draft))


def an_opening(draft):
    return open_epoch(some_box(draft))


def a_run(draft):
    return RUN


def a_book(draft):
    return book(some_box(draft))


def an_epoch(draft):
    draft.epoch += 1
    return epochs(draft.n, 1)


def a_statement(draft):
    return hear(some_box(draft), some_box(draft), some_statement(draft))


def a_statement_of_many(draft):
    """One statement in the names of about as many senders as a threshold asks for, to one box or to all."""
    f, q = thresholds(draft.n)
    said = some_statement(draft)
    senders = draft.rng.sample(range(draft.n), draft.rng.choice([f, f + 1, 2 * f, 2 * f + 1, q - 1, q, draft.n - f]))
    boxes = range(draft.n) if draft.rng.random() < 0.3 else [some_box(draft)]
    return b"".join(hear(box, sender, said) for box in boxes for sender in senders if sender != box)


def a_round_of_many(draft):
    """What closes a round at one box, mostly with one bit."""
    box, bit = some_box(draft), draft.rng.randrange(2)
    e, k = min(draft.epoch, 255), draft.rng.choice([0, 0, 0, 1, 1, 2])
    script = b""
    for sender in range(draft.n):
        byte = draft.rng.choice([1 + bit, 1 + bit, 1 + bit, 3])
        for said in (say("V", e, k, bit), say("V", e, k, 1 - bit), say("A", e, k, bit), say("C", e, k, byte)):
            if sender != box and draft.rng.random() < 0.8:
                script += hear(box, sender, said)
    return script


def a_bad_statement(draft):
    """A statement with an operand that is perhaps out of range."""
    said = bytearray(some_statement(draft))
    said[draft.rng.randrange(1, min(len(said), 4))] = draft.rng.choice([2, 3, 4, draft.n, draft.w, 15, 16, 255])
    return hear(some_box(draft), some_box(draft), bytes(said))


def a_fault(draft):
    """A command that is cut, a byte that is no command, a box that there is not, or an unknown letter."""
    rng = draft.rng
    whole = rng.choice([a_submit, an_opening, a_book, a_statement])(draft)
    faulty = bytearray(whole)
    faulty[rng.randrange(0, min(len(whole), 4))] = rng.randrange(256)
    return rng.choice([whole[:rng.randrange(1, len(whole))], bytes([rng.randrange(256)]), bytes(faulty)])


def asked_about(draft):
    """Statements that tell most of what a box has stated, whether they are its own or not."""
    slots = range(min(draft.w, 2))
    entry = draft.entries[0]
    statements = [say("S", slot, entry) for slot in slots]
    statements += [say(letter, queue, slot, entry) for letter in "ERH" for queue in range(draft.n) for slot in slots]
    e = min(draft.epoch, 255)
    for k in range(3):
        statements += [say("V", e, k, 0), say("V", e, k, 1), say("A", e, k, 0), say("C", e, k, 1)]
    return statements + [say("F", near, 0) for near in range(max(e - 2, 0), min(e + 2, 256))]


def an_audit(draft):
    script = RUN
    for box in range(draft.n):
        script += b"".join(twice((box + 1) % draft.n, box, said) for said in asked_about(draft))
    return script + book(*range(draft.n))


# How often each command is drawn, by the manner of a script.
MANNERS = {
    "honest": {a_submit: 6, an_epoch: 4, a_run: 2, a_book: 2, an_opening: 1},
    "mixed": {a_submit: 4, an_epoch: 3, a_run: 3, a_book: 2, an_opening: 1, a_statement: 6, a_statement_of_many: 3,
              a_round_of_many: 1, a_bad_statement: 1},
    "broadcast": {a_submit: 2, an_epoch: 1, a_run: 3, a_book: 1, a_statement: 12, a_statement_of_many: 4},
    "votes": {a_submit: 1, an_opening: 4, a_run: 4, a_book: 1, a_statement: 8, a_statement_of_many: 4,
              a_round_of_many: 4, an_epoch: 1},
    "bad": {a_submit: 3, an_epoch: 1, an_opening: 2, a_run: 2, a_book: 1, a_bad_statement: 8, a_statement: 4},
}


def some_sheet(rng):
    return rng.choice([rng.randbytes(512), rng.randbytes(512), ONES, bytes(512)])


def some_arguments(rng):
    if rng.random() < 0.25:
        return WEEK
    n = rng.choice([4, 5, 5, 5, 6, 6, 6, 7, 7, 7, rng.randint(4, 16)])
    w = rng.choice([1, 1, 2, 2, 3, 3, rng.randint(1, 16)])
    return set_of(n, w, rng.choice(["reading", "order"]), rng.choice(["bench", "sheet"]))


def generate(seed):
    """The script of a seed: its arguments and its input."""
    rng = Random(seed)
    arguments = some_arguments(rng)
    _, kind, n, w, coin = set_of(4, 2) if arguments == WEEK else arguments
    draft = Draft(rng, kind, int(n), int(w))
    script = some_sheet(rng) if coin == "sheet" else b""
    if seed % 50 == 0:
        draft.epoch = rng.randint(250, 256)
        script += skip(draft.n, draft.epoch)
    manner = MANNERS[rng.choice(list(MANNERS))]
    for _ in range(rng.randint(10, max(10, 2000 // (draft.n * (4 + draft.w))))):
        command = rng.choices(list(manner), list(manner.values()))[0]
        script += command(draft)
    script += an_audit(draft)
    return arguments, script + (a_fault(draft) if rng.random() < 0.3 else b"")
