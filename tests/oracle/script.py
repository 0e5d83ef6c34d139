"""The scripts of docs/FORMATS.md, read by the model: what weekbook and setbook write.

    python3 tests/oracle/script.py week < script
    python3 tests/oracle/script.py set reading|order N W bench|sheet < input
"""
import re
import sys

import model

WEEK_USAGE = b"usage: weekbook < script\n"
SET_USAGE = b"usage: setbook reading|order N W bench|sheet < script\n"


# The commands: where one ends, and whether it is faulty

def statement_length(kind, script, place):
    """The length that the letter at this place asks for, or None."""
    letter = chr(script[place]) if place < len(script) else None
    if letter not in model.OPERANDS:
        return None
    return model.length(letter, kind.width)


def command_length(kind, script, offset):
    """The length of the command that begins here, or None if it is no command or has no letter of a statement."""
    letter = chr(script[offset])
    if letter == "q":
        return 1
    if letter in ("o", "p"):
        return 2
    if letter == "s":
        return 2 + kind.width
    if letter == "x":
        asked = statement_length(kind, script, offset + 3)
        return None if asked is None else 3 + asked
    return None


def boxes_named(command):
    """The boxes and senders that a whole command names."""
    letter = chr(command[0])
    if letter == "q":
        return []
    if letter == "x":
        return [command[1], command[2]]
    return [command[1]]


def next_command(kind, n, script, offset):
    """The bytes of the command that begins here, or None at a fault."""
    length = command_length(kind, script, offset)
    if length is None or offset + length > len(script):
        return None
    command = script[offset:offset + length]
    for box in boxes_named(command):
        if box >= n:
            return None
    return command


# Until nothing alters

def would_decline(hearer, sender, said):
    """Tells quickly of most statements that hear declines with 12 or 14."""
    if said.epoch is not None and said.epoch < hearer.epoch:
        return True
    return model.held(hearer, *model.cell_of(said)).get(sender) == said


def hear_board(hearer, sender, board):
    """Hears each statement of a board. Tells whether one was accepted."""
    altered = False
    for said in board:
        if would_decline(hearer, sender, said):
            continue
        try:
            model.take(hearer, sender, said)
            altered = True
        except model.Declined:
            pass
    return altered


def run_pass(boxes, toss):
    """Each hears each, then each turns until it rests. Tells whether anything altered."""
    altered = False
    boards = [model.board(box) for box in boxes]
    for hearer in boxes:
        for sender in range(len(boxes)):
            if sender != hearer.own and hear_board(hearer, sender, boards[sender]):
                altered = True
    for box in boxes:
        while model.turn(box, toss) != 0:
            altered = True
    return altered


# A script

def obey(boxes, toss, command):
    """Does one whole command. Answers what it writes."""
    letter = chr(command[0])
    if letter == "q":
        while run_pass(boxes, toss):
            pass
        return b""
    box = boxes[command[1]]
    if letter == "p":
        return model.print_book(box)
    if letter == "s":
        model.submit(box, command[2:])
    elif letter == "o":
        model.open_epoch(box)
    else:
        model.hear(box, command[2], command[3:])
    return b""


def refused(declined):
    return f"refused;{declined.number}\n".encode()


def make_set(kind, n, w):
    # a set of no boxes is declined too
    model.make(kind, n, 0, w)
    return [model.make(kind, n, own, w) for own in range(n)]


def play(kind, n, w, toss, script):
    """All that a script writes, up to its end or its first fault."""
    boxes = make_set(kind, n, w)
    output = b""
    offset = 0
    while offset < len(script):
        command = next_command(kind, n, script, offset)
        if command is None:
            return output + f"script;{offset}\n".encode()
        try:
            output += obey(boxes, toss, command)
        except model.Declined as declined:
            output += refused(declined)
        offset += len(command)
    return output


# The programs

def play_set(kind, n, w, coin, data):
    """What setbook writes of its input. The sheet is made first, then the set."""
    try:
        if coin == "bench":
            return play(kind, n, w, model.bench, data)
        return play(kind, n, w, model.sheet(data[:512]), data[512:])
    except model.Declined as declined:
        return refused(declined)


def read_number(text):
    """The number that an argument spells, or None."""
    if not re.fullmatch(r"\+?[0-9]+", text) or int(text) > 255:
        return None
    return int(text)


def read_arguments(arguments):
    """What the arguments of setbook say, or None."""
    if len(arguments) != 4:
        return None
    kind, n, w, coin = arguments
    n, w = read_number(n), read_number(w)
    if kind not in model.KINDS or n is None or w is None or coin not in ("bench", "sheet"):
        return None
    return model.KINDS[kind], n, w, coin


def answer(arguments, data):
    """What a program writes to standard output and standard error, and its status.

    The arguments are `week` or `set`, and then those of the program.
    """
    name, *rest = arguments
    if name == "week":
        if rest:
            return b"", WEEK_USAGE, 1
        return play(model.KINDS["reading"], 4, 2, model.bench, data), b"", 0
    options = read_arguments(rest)
    if options is None:
        return b"", SET_USAGE, 1
    return play_set(*options, data), b"", 0


def main():
    output, error, status = answer(tuple(sys.argv[1:]), sys.stdin.buffer.read())
    sys.stdout.buffer.write(output)
    sys.stderr.buffer.write(error)
    sys.exit(status)


if __name__ == "__main__":
    main()
