#!/usr/bin/env python3
# Counts the places that docs/DESIGN-PASS.md speaks of: `python3 tools/places.py` prints a count for each point,
# `python3 tools/places.py POINT` its places. It reads the files below crates/ as they stand, of the crates that the page
# speaks of; with `--all` those that were written later too.
import collections
import glob
import re
import sys

TESTS = ("checks", "trials", "weeks")

# The crates that were written behind the pass.
LATER = ("dues", "moves", "serving", "weeks", "group", "script", "weekbook", "setbook")

ALL = "--all" in sys.argv


def files(pattern):
    found = sorted(glob.glob(pattern, recursive=True))
    return [path for path in found if ALL or path.split("/")[1] not in LATER]


def sources():
    for path in files("crates/*/src/*.rt"):
        yield path, open(path).read()


def lines(pattern, tests=True):
    found = []
    for path, text in sources():
        if not tests and path.split("/")[1] in TESTS:
            continue
        for at, line in enumerate(text.split("\n"), 1):
            if not line.lstrip().startswith("//") and re.search(pattern, line):
                found.append(f"{path}:{at}: {line.strip()}")
    return found


def functions(tests):
    # each function: where it stands, its head with the clauses, its body
    for path, text in sources():
        if not tests and path.split("/")[1] in TESTS:
            continue
        for m in re.finditer(r"^( *)(?:pub(?:\(crate\))? )?fn (\w+)", text, re.M):
            end = re.search(r"^%s(\}|\{\})$|;$" % m.group(1), text[m.start():], re.M)
            whole = text[m.start():m.start() + end.end()]
            cut = re.search(r"^%s\{$|\{$" % m.group(1), whole, re.M)
            head, body = (whole, "") if not cut else (whole[:cut.start()], whole[cut.start():])
            yield f"{path}:{text[:m.start()].count(chr(10)) + 1}: {m.group(2)}", head, body


def shape(body):
    words = re.findall(r"[A-Za-z_]\w*|\d+|[^\s\w]", body)
    keep = {"match", "if", "else", "return", "let", "for", "in", "loop", "while", "mut", "Some", "None", "Ok", "Err"}
    return tuple(w if w in keep or not re.match(r"\w", w) else "x" for w in words)


def twins():
    groups = collections.defaultdict(list)
    for where, head, body in functions(False):
        s = shape(body)
        if len(s) >= 12:
            groups[s].append(where)
    return [" = ".join(g) for g in groups.values() if len(g) > 1]


def repeated():
    clauses, together = collections.defaultdict(set), collections.defaultdict(set)
    for where, head, body in functions(False):
        for c in re.findall(r"(?:requires|ensures) (?:\w+ )?\{(.*)\}", head):
            clauses["clause " + c.strip()].add(where)
        params = [" ".join(p.split()) for p in re.findall(r"\b\w+: [^,()]+(?:<[^()]*?>)?(?=[,)])", head.split("->")[0])]
        for i, p in enumerate(params):
            for q in params[i + 1:]:
                together[f"parameters {p} and {q}"].add(where)
    return [f"{what}, in {len(fs)}" for d in (clauses, together) for what, fs in sorted(d.items()) if len(fs) >= 3]


def answers():
    found = []
    for path in files("crates/*/proofs/**/*.antt"):
        for at, line in enumerate(open(path).read().split("\n"), 1):
            if re.match(r"(abbrev )?pub [^ ]+ : goal\.", line):
                found.append(f"{path}:{at}: {line}")
    return found


def lemmas():
    found = []
    for path in files("crates/*/proofs/*.antt"):
        for at, line in enumerate(open(path).read().split("\n"), 1):
            if re.match(r" *(abbrev )?(pub )?(abbrev |unfoldable )?[a-zA-Z_][^ ]* : ", line):
                found.append(f"{path}:{at}: {line.strip()}")
    return found


POINTS = {
    "1 enums": lambda: lines(r"\benum [A-Z]"),
    "1 flags": lambda: lines(r"Result<bool, A|Option<Option|\((bool|u8|u16|u32|usize|Refusal), (bool|u8|u16|u32|usize)", False),
    "1 numbers": lambda: lines(r"^ *\d+ => .*[A-Z]|[A-Z]\w*::[A-Z]\w*(\(\w+\))? => (\(?\d|b')", False),
    "2 twins": twins,
    "3 loops": lambda: lines(r"\bloop \{|\bwhile |\bfor .* in .*\.\.", False),
    "3 counters": lambda: lines(r"[-+]= ", False),
    "3 in tests": lambda: [p for p in lines(r"\bloop \{|\bwhile |\bfor .* in .*\.\.|[-+]= ") if p.split("/")[1] in TESTS],
    "4 conversions": lambda: lines(r"fn \w+(<.*>)?\((self|\w+: (u8|u16|u32|bool|Bits|Letter|Refusal|Option<\w+>))\) -> ", False),
    "4 by hand": lambda: lines(r"\bfn (same|fmt|eq|cmp|digits|put_decimal|push_number)\b", False),
    "4 matches": lambda: lines(r"Some\(.*\) => Some\(|None => None|^\s*None => false|Err\(_\) => None", False),
    "5 repeated": repeated,
    "6 buffers": lambda: lines(r"\[[^\[\]]+; ?\w+\]", False),
    "7 switches": lambda: lines(r"match .* % |\bdyn |\bFn\(|\bfn\(", False),
    "8 answers": answers,
    "8 lemmas": lemmas,
}

if __name__ == "__main__":
    wanted = [word for word in sys.argv[1:] if word != "--all"]
    for name, places in POINTS.items():
        found = places()
        if not wanted:
            print(f"{name}: {len(found)}")
        elif name.split()[0] in wanted or name in wanted:
            print(f"{name}: {len(found)}")
            for place in found:
                print("    " + place)
