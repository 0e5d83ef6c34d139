"""Directed scripts for weekbook and setbook: each shows a rule, or a detail of one.

A script here is a triple: its name, the arguments (`week`, or `set` with those of setbook) and the input.
Most of them speak to box 0 alone, in the names of the others, and let the set run. Box 1 has then heard box 0's board,
and is asked what it holds: asked about a statement of box 0, it answers 14 if box 0 has stated it, 15 if it has stated
another in its place, and nothing if neither. An 8 ends each answer.
"""
from random import Random

import model

WEEK = ("week",)
RUN = b"q"


def reading(number):
    return bytes([0, number, 7, 1, 0, 0, 0, number])


def give(number):
    return bytes([1, 0, number, 1, number, 0, 0, 0, number])


def shut(number):
    return bytes([2, 0, number]) + bytes(6)


X = reading(20)
Y = reading(10)
NO_READING = reading(0)
NO_ORDER = give(0)

# A sheet on which every toss is 1.
ONES = b"\xFF" * 512


# The commands

def submit(box, entry):
    return b"s" + bytes([box]) + entry


def open_epoch(*boxes):
    return b"".join(b"o" + bytes([box]) for box in boxes)


def book(*boxes):
    return b"".join(b"p" + bytes([box]) for box in boxes)


def say(letter, *operands):
    return model.written(model.statement(letter, *operands))


def hear(box, sender, said):
    return b"x" + bytes([box, sender]) + said


def twice(box, sender, said):
    """Writes refused;14 if the statement is accepted at first, else the number of its refusal twice."""
    return hear(box, sender, said) * 2


def forge(box, senders, letter, *operands):
    """The box hears one statement in the name of each of the senders."""
    return b"".join(hear(box, sender, say(letter, *operands)) for sender in senders)


def stop(box):
    """Writes refused;8, whatever was before."""
    return hear(box, box, say("F", 0, 0))


def ask(letter, *operands, asked=1, box=0):
    """What does the box that is asked hold from this box, which is box 0 for the most part?"""
    return hear(asked, box, say(letter, *operands)) + stop(asked)


def has_left(e, box=0):
    """Writes refused;12 if the box has left this epoch."""
    return hear(box, 1 if box == 0 else 0, say("V", e, 9, 0)) + stop(box)


def round_of(n, e, k, bit):
    """What the others must say to box 0 for round k to close with one bit."""
    others = range(1, n)
    votes = forge(0, others, "V", e, k, bit) + forge(0, others, "A", e, k, bit)
    return votes + forge(0, others, "C", e, k, 1 + bit)


def epochs(n, number):
    """All open and run, so many times."""
    return (open_epoch(*range(n)) + RUN) * number


def skip(n, number):
    """So many epochs, from 0 on, end with bit 0 by finishes that f + 1 boxes hear of f + 1 others."""
    f, _ = model.thresholds(n)
    script = b""
    for e in range(number):
        script += b"".join(forge(box, range(n - f - 1, n), "F", e, 0) for box in range(f + 1)) + RUN
    return script


def set_of(n, w=1, kind="reading", coin="bench"):
    return ("set", kind, str(n), str(w), coin)


# Thresholds: so many senders say it, and box 1 is asked whether box 0 does what they lead to

def equal_echoes(n, count):
    return forge(0, range(1, count + 1), "E", 0, 0, X) + RUN + ask("R", 0, 0, X)


def equal_readies(n, count):
    return forge(0, range(1, count + 1), "R", 0, 0, X) + RUN + ask("R", 0, 0, X)


def readies_to_keep(n, count):
    # the own ready comes of the echoes and counts
    _, q = model.thresholds(n)
    own = forge(0, range(1, q + 1), "E", 0, 0, X)
    return own + forge(0, range(1, count), "R", 0, 0, X) + RUN + ask("R", 0, 0, X) + ask("H", 0, 0, X)


def equal_haves(n, count):
    return forge(0, range(1, count + 1), "H", 0, 0, X) + RUN + ask("H", 0, 0, X)


def finishes_to_follow(n, count):
    return forge(0, range(1, count + 1), "F", 0, 1) + RUN + ask("F", 0, 1)


def finishes_to_decide(n, count):
    # the own finish comes of round 0 and counts
    own = open_epoch(0) + round_of(n, 0, 0, 0) + RUN
    return own + forge(0, range(1, count), "F", 0, 0) + RUN + has_left(0)


def second_values(n, count):
    return open_epoch(0) + forge(0, range(1, count + 1), "V", 0, 0, 1) + RUN + ask("V", 0, 0, 1)


def values_to_see(n, count):
    # the own value comes of the opening and counts
    return open_epoch(0) + forge(0, range(1, count), "V", 0, 0, 0) + RUN + ask("A", 0, 0, 0)


def seens_to_confirm(n, count):
    # the own seen counts; those of the other bit, which is no value, do not
    values = open_epoch(0) + forge(0, range(1, n), "V", 0, 0, 0)
    seens = forge(0, range(1, count), "A", 0, 0, 0) + forge(0, range(count, n), "A", 0, 0, 1)
    return values + seens + RUN + ask("C", 0, 0, 1)


def confirms_to_close(n, count):
    # the own confirm counts; sets with a bit that is no value do not
    votes = open_epoch(0) + forge(0, range(1, n), "V", 0, 0, 0) + forge(0, range(1, n), "A", 0, 0, 0)
    confirms = forge(0, range(1, count), "C", 0, 0, 1) + forge(0, range(count, n), "C", 0, 0, 3)
    return votes + confirms + RUN + ask("F", 0, 0) + ask("V", 0, 1, 0)


def thresholds():
    # Each threshold at it and one below it. At 5 and 6 boxes one below Q is 2f + 1.
    for n in range(4, 17):
        f, q = model.thresholds(n)
        rows = [
            (equal_echoes, q), (equal_readies, f + 1), (readies_to_keep, 2 * f + 1), (equal_haves, f + 1),
            (finishes_to_follow, f + 1), (finishes_to_decide, 2 * f + 1), (second_values, f + 1),
            (values_to_see, 2 * f + 1), (seens_to_confirm, n - f), (confirms_to_close, n - f),
        ]
        for build, least in rows:
            yield f"{build.__name__}-at-{n}", set_of(n), build(n, least)
            yield f"{build.__name__}-below-{n}", set_of(n), build(n, least - 1)


# The broadcast

def broadcast():
    # The first send is echoed, and another for the same slot is declined.
    script = forge(0, [1], "S", 0, X) + forge(0, [1], "S", 0, Y) + RUN + ask("E", 1, 0, X)
    yield "echo-the-first-send", set_of(4), script
    # A sender counts once, however often it speaks.
    yield "one-sender-twice", set_of(4), forge(0, [1, 1], "R", 0, 0, X) + RUN + ask("R", 0, 0, X)
    # Of two entries with f + 1 readies the lowest sender's is taken, whichever is the lower entry.
    for low, high in ((X, Y), (Y, X)):
        script = forge(0, [2, 3], "R", 0, 0, high) + forge(0, [1, 4], "R", 0, 0, low) + RUN
        yield f"lowest-sender-of-readies-{low[1]}", set_of(5), script + ask("R", 0, 0, low) + ask("H", 0, 0, low)
        script = forge(0, [2, 3], "H", 0, 0, high) + forge(0, [1, 4], "H", 0, 0, low) + RUN
        yield f"lowest-sender-of-haves-{low[1]}", set_of(5), script + ask("H", 0, 0, low)
    # Two entries have 2f + 1 readies, one with the own: the lowest sender's is kept.
    script = forge(5, [0, 1, 2, 3], "E", 0, 0, X) + forge(5, [3, 4], "R", 0, 0, X) + forge(5, [0, 1, 2], "R", 0, 0, Y)
    script += RUN + ask("R", 0, 0, X, box=5) + ask("H", 0, 0, Y, box=5)
    yield "lowest-sender-of-readies-to-keep", set_of(6), script
    # The lowest sender's goes before an entry that more hold.
    script = forge(0, [2, 3, 5], "R", 0, 0, Y) + forge(0, [1, 4], "R", 0, 0, X) + RUN + ask("R", 0, 0, X)
    yield "lowest-sender-of-fewer", set_of(6), script
    # The lowest sender has an entry that too few hold.
    script = forge(0, [1], "R", 0, 0, Y) + forge(0, [2, 3], "R", 0, 0, X) + RUN + ask("R", 0, 0, X)
    yield "lowest-sender-too-few", set_of(5), script
    # Echoes go before readies.
    script = forge(0, [1, 2], "R", 0, 0, Y) + forge(0, [1, 2, 3, 4], "E", 0, 0, X) + RUN + ask("R", 0, 0, X)
    yield "echoes-before-readies", set_of(5), script
    # Readies go before haves.
    script = forge(0, [3, 4], "H", 0, 0, Y) + forge(0, [1, 2], "R", 0, 0, X) + RUN + ask("H", 0, 0, X)
    yield "readies-before-haves", set_of(5), script
    # Equal entries in two slots are not added up.
    script = forge(0, [1], "R", 0, 0, X) + forge(0, [2], "R", 0, 1, X) + forge(0, [3], "R", 1, 0, X) + RUN
    yield "each-slot-apart", set_of(4, 2), script + ask("R", 0, 0, X) + ask("R", 0, 1, X) + ask("R", 1, 0, X)


# Finishes

def follow_and_decide():
    # Follow goes before Decide: those behind hear f + 1 finishes of the boxes that have left, and leave too.
    for n in (4, 5, 6, 7):
        f, _ = model.thresholds(n)
        script = b""
        for box in range(f + 1):
            script += forge(box, [sender for sender in range(n) if sender != box], "F", 0, 0)
        script += RUN + b"".join(has_left(0, box) for box in range(n))
        yield f"follow-before-decide-{n}", set_of(n), script
    # Both bits have f + 1 finishes, and then bit 0 has 2f + 1.
    script = forge(0, [1, 2], "F", 0, 1) + forge(0, [3, 4], "F", 0, 0) + RUN
    yield "follow-bit-0", set_of(5), script + ask("F", 0, 0) + has_left(0)
    # Both bits have 2f + 1: box 0 leaves epoch 1 by bit 0. Its past finish keeps the bit that it stated, and box 5,
    # which was behind in epoch 0, is told that one.
    script = ONES + forge(0, [1, 2], "F", 0, 0) + RUN + open_epoch(0) + round_of(6, 1, 0, 1) + RUN
    script += forge(0, [1, 2], "F", 1, 1) + forge(0, [3, 4, 5], "F", 1, 0) + RUN + has_left(1)
    script += forge(5, [1], "F", 0, 0) + RUN + ask("F", 1, 1, asked=5)
    yield "decide-bit-0", set_of(6, coin="sheet"), script
    # Only box 0 is ahead. Later the others are told its finish of each epoch, as soon as one more speaks for it.
    script = b"".join(forge(0, [1, 2], "F", e, 0) + RUN for e in range(3)) + b"".join(ask("F", e, 0) for e in range(3))
    for e in range(3):
        script += forge(1, [2], "F", e, 0) + RUN + b"".join(has_left(e, box) for box in (1, 2, 3))
    yield "told-later", WEEK, script
    # Finishes go before rounds: the finish of others is stated, not that of round 0, and then no round runs.
    script = open_epoch(0) + round_of(4, 0, 0, 0) + forge(0, [1, 2], "F", 0, 1) + RUN + ask("A", 0, 0, 0)
    yield "follow-before-rounds", WEEK, script + ask("F", 0, 1)
    # A finish once stated is not stated again: round 1 would have the other bit.
    script = open_epoch(0) + round_of(5, 0, 0, 0) + round_of(5, 0, 1, 1) + RUN
    yield "finish-once", set_of(5), script + ask("V", 0, 2, 1) + ask("F", 0, 0)


def unopened():
    # Follow, Decide and Write without any opening.
    ends = forge(0, [2, 3], "F", 0, 1) + forge(1, [2, 3], "F", 0, 1)
    yield "page-unopened", WEEK, submit(0, X) + RUN + ends + RUN + book(0, 3) + open_epoch(0)
    # An epoch awaits its page: it cannot be opened, hears votes and writes the page when there is a candidate.
    script = ends + RUN + open_epoch(0, 3) + book(0) + forge(0, [1, 1], "V", 0, 15, 1) + forge(0, [1], "F", 1, 0)
    script += submit(1, Y) + RUN + book(0) + submit(0, X) + RUN + book(0, 3) + open_epoch(0, 0)
    yield "awaits-its-page", WEEK, script
    # It awaits its page even when bit 0 has enough finishes too.
    script = forge(0, [1, 2], "F", 0, 1) + RUN + forge(0, [3, 4, 5], "F", 0, 0) + RUN + open_epoch(0)
    yield "awaits-for-good", set_of(6), script
    # It awaits its page out of an open epoch, and states no votes any more.
    script = open_epoch(0) + forge(0, [2, 3], "F", 0, 1) + RUN + open_epoch(0) + round_of(4, 0, 0, 1) + RUN
    yield "awaits-out-of-open", WEEK, script + ask("V", 0, 0, 0) + ask("V", 0, 0, 1) + ask("A", 0, 0, 1)
    # Before the opening no votes are stated, whatever is heard; behind it all at once.
    script = round_of(4, 0, 0, 0) + RUN + ask("V", 0, 0, 0) + open_epoch(0) + RUN
    yield "rounds-wait-for-open", WEEK, script + ask("V", 0, 0, 0, asked=2) + ask("F", 0, 0, asked=2) + open_epoch(0)


# Entries, queues and the book

def candidates():
    # The search stops at slot 0, which is not kept, though slot 1 is. With slot 0 kept both are written, one an epoch.
    kept = forge(0, [2, 3], "H", 0, 1, X) + forge(1, [2, 3], "H", 0, 1, X) + RUN
    yield "candidate-stops-voted", WEEK, kept + epochs(4, 1) + book(0) + ask("F", 0, 0)
    ends = forge(0, [2, 3], "F", 0, 1) + forge(1, [2, 3], "F", 0, 1) + RUN
    script = kept + ends + book(0) + submit(0, Y) + RUN + book(0) + epochs(4, 4) + book(0, 3)
    yield "candidate-stops-awaiting", WEEK, script
    # The same entry in two queues is written once; the candidate goes by it to the next slot.
    script = submit(0, X) + submit(1, X) + RUN + epochs(4, 2) + book(0, 1, 2, 3) + submit(1, Y) + epochs(4, 4)
    yield "in-the-book-of-another-queue", WEEK, script + book(0, 1, 2, 3)
    # The same entry twice in one queue is written once.
    script = submit(2, X) + submit(2, X) + RUN + epochs(4, 7) + book(0)
    yield "in-the-book-of-the-own-queue", WEEK, script
    # The entry of the own have is written, and counts as in the book, whatever all the others keep.
    script = forge(0, [1, 2], "R", 0, 0, Y) + RUN + submit(0, X) + RUN + epochs(4, 1) + book(0, 1)
    script += submit(0, Y) + submit(0, X) + submit(1, X) + submit(1, Y)
    yield "own-have", WEEK, script
    # The bit of the opening is that of the moment: a later entry waits for the next turn of its queue.
    script = open_epoch(0, 1, 2, 3) + submit(0, X) + RUN + book(0) + epochs(4, 4) + book(0)
    yield "opened-before-submit", WEEK, script
    # An epoch's queue is that of its number mod N, and W slots are all that a queue gives.
    script = b"".join(submit(3, reading(60 + at)) for at in range(3)) + RUN + epochs(5, 14) + book(0, 4)
    yield "queue-of-the-epoch", set_of(5, 2), script


def submits():
    # Submit takes the slot without an own send, though an entry is kept there by the word of others.
    script = forge(0, [2, 3], "H", 0, 0, Y) + RUN + submit(0, X) + RUN + ask("S", 0, X) + ask("H", 0, 0, Y)
    yield "submit-in-a-kept-slot", WEEK, script
    # Full goes before booked. What stands in the queue only may be submitted again.
    script = submit(0, X) + submit(0, X) + submit(0, Y) + RUN + epochs(4, 1) + submit(0, X) + submit(1, X)
    script += submit(1, Y) + submit(1, NO_READING) + submit(0, NO_READING)
    yield "full-and-booked", WEEK, script + book(0)
    # The book empty, growing and full.
    script = book(0) + b"".join(submit(box, reading(10 * box + k)) for box in range(4) for k in (1, 2)) + RUN
    for _ in range(9):
        script += epochs(4, 1) + book(1)
    yield "full-book", WEEK, script + book(0, 2, 3) + submit(0, X)


# Rounds

def passes():
    # A box turns until it rests: it confirms before it hears of the values that its own second value brings about.
    script = open_epoch(0, 4, 5) + forge(0, [1, 2], "V", 0, 0, 0) + forge(0, [1, 2, 3], "V", 0, 0, 1)
    script += forge(0, [1, 2, 3, 6], "A", 0, 0, 0) + forge(4, [1, 2], "V", 0, 0, 1) + forge(5, [1, 2], "V", 0, 0, 1)
    yield "turns-until-rest", set_of(7), script + RUN + ask("C", 0, 0, 1)
    # All have heard before the first turns: box 6 confirms before it hears of the second values of boxes 0 and 3.
    script = open_epoch(0, 3, 6) + forge(0, [1, 2, 4], "V", 0, 0, 1) + forge(3, [1, 2, 4], "V", 0, 0, 1)
    script += forge(6, [1, 2], "V", 0, 0, 0) + forge(6, [1, 2], "V", 0, 0, 1) + forge(6, [1, 2, 4, 5], "A", 0, 0, 0)
    yield "hear-before-turns", set_of(7), script + RUN + ask("C", 0, 0, 1, box=6)


def tosses():
    # A bit that is not the toss is no finish, but the next value.
    script = open_epoch(0) + round_of(4, 0, 0, 1) + RUN + ask("V", 0, 1, 1) + ask("F", 0, 1)
    yield "finish-only-with-the-toss", WEEK, script + round_of(4, 0, 1, 1) + RUN + ask("F", 0, 1, asked=2)
    # The bench coin goes by the epoch too.
    script = skip(4, 1) + open_epoch(0) + round_of(4, 1, 0, 0) + RUN + ask("F", 1, 0) + round_of(4, 1, 1, 0) + RUN
    yield "bench-of-epoch-1", WEEK, script + ask("F", 1, 0, asked=2)


def joined_confirms():
    # All confirm sets within values are joined, also beyond N - f: both bits, so the toss is next and no finish.
    for bit in (0, 1):
        others = forge(0, [1, 2, 3], "V", 0, 0, bit) + forge(0, [1, 2, 3], "A", 0, 0, bit) + RUN
        late = forge(0, [1, 2, 3], "V", 0, 0, 1 - bit) + forge(0, [1, 2], "C", 0, 0, 1 + bit)
        script = open_epoch(0) + others + ask("C", 0, 0, 1 + bit) + late + forge(0, [3], "C", 0, 0, 2 - bit) + RUN
        asks = ask("V", 0, 1, 0) + ask("V", 0, 1, 1) + ask("F", 0, bit)
        yield f"close-joins-all-{bit}-toss-0", WEEK, script + asks
        yield f"close-joins-all-{bit}-toss-1", set_of(4, coin="sheet"), ONES + script + asks
        # The sets are joined, not the values: with both values, equal sets have one bit.
        script = open_epoch(0) + others + late + RUN + ask("V", 0, 1, bit) + ask("F", 0, 0)
        yield f"close-joins-sets-{bit}", WEEK, script


def confirms():
    # Close waits for the own confirm, and so for the seen bits.
    script = open_epoch(0) + forge(0, [1, 2, 3], "V", 0, 0, 0) + forge(0, [1, 2, 3], "C", 0, 0, 1) + RUN
    script += ask("F", 0, 0) + forge(0, [1, 2], "A", 0, 0, 0) + RUN + ask("F", 0, 0, asked=2)
    yield "close-with-the-own-confirm", WEEK, script
    # A second value goes before the confirm, which then states both.
    script = open_epoch(0) + forge(0, [1, 2], "V", 0, 0, 0) + forge(0, [1, 3], "V", 0, 0, 1)
    script += forge(0, [1, 2, 3], "A", 0, 0, 0) + RUN + ask("C", 0, 0, 3)
    yield "second-value-before-confirm", WEEK, script
    # Confirm states values and not the bits that were seen; seen states the lowest bit.
    both = forge(0, [1, 2, 3], "V", 0, 0, 0) + forge(0, [1, 2, 3], "V", 0, 0, 1)
    script = open_epoch(0) + both + forge(0, [1, 2, 3], "A", 0, 0, 0) + RUN
    yield "confirm-values", WEEK, script + ask("C", 0, 0, 3) + ask("A", 0, 0, 0)
    # Values grow: seen bits that were outside come to count.
    script = open_epoch(0) + forge(0, [1, 2, 3], "V", 0, 0, 0) + forge(0, [1, 2], "A", 0, 0, 1) + RUN
    script += ask("A", 0, 0, 0) + ask("C", 0, 0, 1) + forge(0, [1, 2], "V", 0, 0, 1) + RUN
    yield "values-grow", WEEK, script + ask("C", 0, 0, 3, asked=2)


def second_value_rounds():
    # Not for a round to come; when that round has begun, it is stated.
    script = open_epoch(0) + forge(0, [1, 2], "V", 0, 1, 1) + RUN + ask("V", 0, 1, 1) + round_of(4, 0, 0, 0) + RUN
    yield "second-value-of-a-round-to-come", WEEK, script + ask("V", 0, 1, 1, asked=2)
    # For a round already left.
    script = open_epoch(0) + round_of(4, 0, 0, 0) + round_of(4, 0, 1, 0) + RUN + forge(0, [2, 3], "V", 0, 0, 1) + RUN
    yield "second-value-of-a-round-left", WEEK, script + ask("V", 0, 0, 1) + ask("V", 0, 2, 0)


def last_round():
    # All rounds close without finish, since no toss is 0. Round 15 closes once, and second values still come.
    script = ONES + epochs(4, 1) + open_epoch(0) + ask("V", 0, 15, 0) + ask("C", 0, 15, 1) + ask("F", 0, 0)
    script += forge(0, [1, 2], "V", 0, 15, 1) + forge(0, [2, 3], "V", 0, 3, 1) + RUN + ask("V", 0, 15, 1)
    script += ask("V", 0, 3, 1) + forge(2, [1, 3], "F", 0, 1) + forge(3, [1, 2], "F", 0, 1) + RUN + open_epoch(0)
    script += submit(0, X) + RUN + book(0, 1, 2, 3) + epochs(4, 1) + open_epoch(1)
    yield "round-15-closes", set_of(4, coin="sheet"), script
    # The same with forged votes to box 0 alone, at seven boxes, and the finish of the others at last.
    script = ONES + open_epoch(0) + b"".join(round_of(7, 0, k, 0) for k in range(16)) + RUN + ask("C", 0, 15, 1)
    script += ask("F", 0, 0) + forge(0, [2, 3, 4], "F", 0, 0) + RUN + ask("F", 0, 0, asked=2)
    yield "round-15-closes-alone", set_of(7, coin="sheet"), script


def sheets():
    # Each bit of an epoch's two bytes: one round alone has toss 0, and its close states the finish.
    for k in range(16):
        sheet = bytes(255 - (1 << k % 8) if place == k // 8 else 255 for place in range(512))
        script = open_epoch(0) + b"".join(round_of(4, 0, j, 0) for j in range(k)) + RUN + ask("F", 0, 0)
        script += round_of(4, 0, k, 0) + RUN + ask("F", 0, 0, asked=2)
        yield f"sheet-round-{k}", set_of(4, coin="sheet"), sheet + script
    # The bytes of later epochs: this epoch alone ends of itself.
    for e in (1, 100, 255):
        sheet = bytes(0 if place // 2 == e else 255 for place in range(512))
        script = skip(4, e) + epochs(4, 1) + open_epoch(0) + epochs(4, 1) + open_epoch(0)
        yield f"sheet-epoch-{e}", set_of(4, coin="sheet"), sheet + script


# What is heard

def all_letters(entry, e=0):
    broadcast = [say("S", 0, entry)] + [say(letter, 1, 0, entry) for letter in "ERH"]
    return broadcast + [say("V", e, 2, 1), say("A", e, 2, 1), say("C", e, 2, 1), say("F", e, 1)]


def heard():
    # Each letter once, again, and with another entry, bit or set: 14 and 15, but a value has a cell for each bit.
    script = b"".join(twice(0, 1, said) for said in all_letters(X))
    others = [say("S", 0, Y)] + [say(letter, 1, 0, Y) for letter in "ERH"]
    others += [say("V", 0, 2, 0), say("V", 0, 2, 0), say("A", 0, 2, 0), say("C", 0, 2, 3), say("F", 0, 0)]
    yield "held-and-other", WEEK, script + b"".join(twice(0, 1, said) for said in others)
    # In the own name, and each letter in the name of each other.
    script = b"".join(twice(2, sender, said) for sender in range(4) for said in all_letters(X))
    yield "every-sender", WEEK, script + RUN + book(2)
    # Operands out of range, and just within.
    ranges = [say("S", 2, X), say("S", 255, X), say("S", 1, X), say("F", 0, 2), say("F", 0, 255)]
    for letter in "ERH":
        ranges += [say(letter, 4, 0, X), say(letter, 0, 2, X), say(letter, 3, 1, X)]
    for letter in "VAC":
        ranges += [say(letter, 0, 16, 1), say(letter, 0, 255, 1), say(letter, 0, 15, 1), say(letter, 0, 14, 4)]
    ranges += [say("V", 0, 3, 2), say("A", 0, 3, 2), say("C", 0, 3, 0), say("C", 0, 3, 3)]
    yield "ranges", WEEK, b"".join(twice(0, 1, said) for said in ranges)
    # Past goes before held; range before entry and epoch; entry before held.
    script = b"".join(hear(0, 3, said) for said in all_letters(X)) + skip(4, 2)
    script += b"".join(twice(0, 3, said) for e in (0, 1, 2, 3) for said in all_letters(X, e))
    order = [say("C", 0, 2, 4), say("F", 9, 2), say("S", 2, NO_READING), say("E", 1, 0, NO_READING), say("V", 9, 16, 0)]
    yield "order-of-checks", WEEK, script + b"".join(hear(0, 3, said) for said in order)


def entries():
    # The borders of readings and of share orders.
    readings = ["0001010100000000", "03E73503FFFFFFFF", "0000010100000000", "03E8010100000000", "0001000100000000"]
    readings += ["0001360100000000", "0001010000000000", "0001010400000000", "FFFF010100000000", "0100010200000001"]
    for form in ("01", "02", "00", "03"):
        orders = ["000103E700000001", "03E70001FFFFFFFF", "000103E800000001", "03E8000100000001", "0001000100000001"]
        orders += ["0000000200000001", "0001000000000001", "0001000200000000", "0001000000000000", "03E7000000000000"]
        orders += ["03E8000000000000", "0000000000000000", "0001010000000000"]
        script = b"".join(twice(0, 1, say("S", at, bytes.fromhex(form + one))) for at, one in enumerate(orders))
        yield f"orders-of-form-{form}", set_of(4, 16, "order"), script
    script = b"".join(twice(0, 1, say("S", at, bytes.fromhex(one))) for at, one in enumerate(readings))
    yield "readings", set_of(4, 16), script
    # The least and the greatest numbers of readings in the file.
    script = submit(0, bytes.fromhex(readings[1])) + submit(1, bytes.fromhex(readings[0])) + RUN
    yield "file-of-readings", WEEK, script + epochs(4, 2) + book(0)
    # Gives, closes and a repeated give, which is passed over, at seven boxes with a sheet.
    script = submit(0, give(1)) + submit(1, shut(1)) + submit(2, give(1)) + submit(2, give(2)) + submit(3, NO_ORDER)
    script += submit(6, bytes.fromhex("0103E7000CFFFFFFFF")) + RUN + epochs(7, 10) + submit(4, give(2)) + book(0, 6)
    yield "share-orders", set_of(7, 2, "order", "sheet"), Random(7).randbytes(512) + script


# The end of the week

def after_the_week():
    script = open_epoch(0, 3) + forge(0, [1], "V", 255, 0, 0) + forge(0, [1], "F", 255, 1) + forge(0, [1], "C", 0, 0, 4)
    script += submit(0, X) + submit(1, X) + submit(2, Y) + submit(3, NO_READING) + RUN
    script += ask("S", 0, X) + ask("H", 0, 0, X) + ask("E", 0, 0, Y)
    return script + book(0, 3) + open_epoch(2) + RUN


def week_ends():
    # All 256 epochs by opening and running, with a page or two at the beginning and one late.
    script = submit(1, reading(60)) + submit(2, reading(61)) + RUN + epochs(4, 250)
    script += submit(3, reading(62)) + epochs(4, 6) + after_the_week()
    yield "week-of-openings", WEEK, script + submit(1, reading(60)) + submit(1, reading(61))
    # All 256 epochs by finishes of others.
    yield "week-of-finishes", set_of(4), skip(4, 256) + after_the_week()
    # The last epoch is 255, and one box alone comes to the end.
    script = skip(4, 255) + open_epoch(0) + forge(0, [2, 3], "F", 255, 0) + RUN + open_epoch(0, 1) + after_the_week()
    yield "week-ended-alone", WEEK, script
    # The last epoch awaits its page, and is left with it.
    script = skip(4, 255) + forge(0, [2, 3], "F", 255, 1) + forge(1, [2, 3], "F", 255, 1) + RUN + open_epoch(0)
    yield "week-ends-with-a-page", WEEK, script + submit(3, reading(63)) + RUN + book(0, 3) + after_the_week()


# Scripts and their faults

def one_of_each(kind):
    """A command of each letter but q, and of each letter of a statement, by its letters."""
    entry = X if kind == "reading" else give(1)
    commands = {"s": submit(0, entry), "o": open_epoch(0), "p": book(0)}
    for letter, said in zip("SERHVACF", all_letters(entry)):
        commands["x" + letter] = hear(0, 1, said)
    return commands


def cut_commands():
    # Each command cut at every byte, behind one that writes something.
    for kind in ("reading", "order"):
        for letters, command in one_of_each(kind).items():
            for cut in range(1, len(command)):
                yield f"cut-{kind}-{letters}-{cut}", set_of(4, 1, kind), book(3) + command[:cut]


def faults():
    # Nothing, and every byte that is no command, at the beginning and further on.
    yield "empty", WEEK, b""
    yield "empty-set", set_of(16, 16, "order"), b""
    for byte in (0, 10, 13, 32, 79, 80, 83, 110, 114, 119, 121, 255):
        yield f"no-command-{byte}", WEEK, bytes([byte]) + book(0)
        yield f"no-command-{byte}-later", WEEK, book(0) + RUN + open_epoch(0, 0) + bytes([byte]) + book(0)
    # Boxes and senders from N on, at commands that would be declined or not.
    for n in (4, 7, 16):
        for box in (n, 255):
            commands = [submit(box, X), submit(box, NO_READING), open_epoch(box), book(box)]
            commands += [hear(box, 0, say("F", 0, 1)), hear(0, box, say("F", 0, 1)), hear(box, box, say("F", 9, 2))]
            for at, command in enumerate(commands):
                yield f"no-box-{box}-of-{n}-{at}", set_of(n), open_epoch(n - 1, n - 1) + command + book(0)
    # Letters of no statement, also where the sender is the box itself.
    for byte in (0, 10, 66, 115, 118, 102, 255):
        yield f"no-letter-{byte}", WEEK, open_epoch(0, 0) + hear(0, 0, bytes([byte]) + bytes(20))
    # A fault goes before a refusal: the own sender, no entry and a future epoch, each cut short.
    for at, command in enumerate((hear(0, 0, say("S", 0, X)), submit(0, NO_READING), hear(0, 1, say("F", 9, 2)))):
        yield f"fault-before-refusal-{at}", WEEK, command + command[:-1]
    # A script that ends between two commands, behind each command.
    for letters, command in one_of_each("reading").items():
        yield f"whole-{letters}", WEEK, command * 2


def programs():
    # What setbook says where no set can be made, whatever the script.
    for n, w in ((0, 1), (3, 1), (17, 1), (255, 1), (4, 0), (4, 17), (16, 255), (3, 0), (17, 17)):
        yield f"no-set-{n}-{w}", set_of(n, w), book(0)
        yield f"no-set-{n}-{w}-sheet", set_of(n, w, coin="sheet"), bytes(512) + b"?"
    # A sheet cut short, also where no set can be made; a sheet and nothing else; offsets count from behind it.
    for size in (0, 1, 511):
        yield f"sheet-of-{size}", set_of(4, coin="sheet"), bytes(size)
        yield f"sheet-of-{size}-no-set", set_of(3, 0, coin="sheet"), bytes(size)
    yield "sheet-alone", set_of(4, coin="sheet"), bytes(512)
    yield "sheet-and-fault", set_of(4, coin="sheet"), b"q" * 512 + book(1) + b"?"
    # Every number of boxes, and the greatest number of slots.
    for n in range(4, 17):
        script = submit(n - 1, X) + submit(0, Y) + RUN + epochs(n, 1) + book(0, n - 1)
        yield f"boxes-{n}", set_of(n, 16 if n in (4, 16) else 2), script


def arguments():
    # Numbers as a u8 is read, and other arguments.
    for at, (n, w) in enumerate((("004", "2"), ("+4", "+02"), ("4", "0000000001"), ("+0", "1"), ("+016", "00"))):
        yield f"number-{at}", ("set", "reading", n, w, "bench"), open_epoch(0, 0, 3) + book(0)
    numbers = ["", "four", "-4", "-0", "+", "++4", "4 ", " 4", "4.0", "0x4", "4_0", "\u0664", "256", "00256", "4" * 30]
    usages = [("reading", number, "1", "bench") for number in numbers]
    usages += [("reading", "4", number, "sheet") for number in numbers]
    usages += [
        (), ("reading",), ("reading", "4", "1"), ("readings", "4", "1", "bench"), ("order", "4", "1", "coin"),
        ("reading", "4", "1", "bench", "sheet"), ("bench", "4", "1", "reading"), ("reading", "256", "0", "coin"),
    ]
    for at, usage in enumerate(usages):
        yield f"usage-{at}", ("set",) + usage, book(0)
    for at, usage in enumerate((("",), ("week",), ("reading", "4", "2", "bench"))):
        yield f"usage-of-week-{at}", WEEK + usage, book(0)


FAMILIES = [
    thresholds, broadcast, follow_and_decide, unopened, candidates, submits, passes, tosses, joined_confirms, confirms,
    second_value_rounds, last_round, sheets, heard, entries, week_ends, cut_commands, faults, programs,
    arguments,
]


def directed():
    """All directed scripts."""
    return [one for family in FAMILIES for one in family()]
