#!/usr/bin/env python3
"""Brings the repository's own definitions and lemmas to the spelling of today's library: snake case for what
answers a value or a proof, upper camel case for types and facts.

usage: python3 tools/respell.py      once, at the top of the repository, after the kit's port.py

Only names that are defined in specs/*.antt and proofs/*.antt are respelt, in all .antt and .rt files and in must-fail
and planted edits. A name that a file imports from the library, and the names that the checker makes for goals and
steps, stay.
"""

import os
import re
import sys

OWN = [l.split(":")[0].strip() for l in open("crates.txt", encoding="utf-8") if ":" in l and not l.startswith("#")]
# names that would fall together with another one when respelt
APART = {
    "read-of": "reading_of", "setIn": "set_numbered", "seenIn": "seen_inside", "setOf": "set_for", "bitIn": "bit_numbered",
    "in-book": "stands_in_book", "entry-of": "entry_stated", "entry_of": "entry_stated", "setNumber": "number_of_set", "markSet": "with_set",
}
IDENT = r"[^\s(){}\[\];,.λ\"|@]+"
TOKEN = re.compile(IDENT)
DEFINES = re.compile(rf"\s*(?:(?:pub|abbrev|unfoldable)\s+)*(?:(record|data)\s+)?((?:{IDENT}\s+)*?{IDENT})((?:\s+[({{].*[)}}])?)\s+:(?:\s|$)")


def respelt(name):
    if name in APART:
        return APART[name]
    if name[0].isupper():
        head, *rest = name.replace("_", "-").split("-")
        return head + "".join(w[:1].upper() + w[1:] for w in rest)
    name = re.sub(r"([a-z0-9])([A-Z])", lambda m: m.group(1) + "_" + m.group(2).lower(), name)
    return name.replace("-", "_").replace("′", "'")


def files(*ends):
    for folder, dirs, names in os.walk("."):
        dirs[:] = sorted(d for d in dirs if d not in (".git", "out", "target"))
        for n in sorted(names):
            if n.endswith(ends):
                yield os.path.join(folder, n)


def read(path):
    with open(path, encoding="utf-8") as f:
        return f.read()


def defined():
    """Each name that a file of specs/ or proofs/ defines."""
    names = set()
    for c in OWN:
        for part in ("specs", "proofs"):
            folder = os.path.join("crates", c, part)
            for n in sorted(os.listdir(folder)) if os.path.isdir(folder) else []:
                if not n.endswith(".antt") or n == "Lib.antt":
                    continue
                for line in read(os.path.join(folder, n)).splitlines():
                    m = DEFINES.match(line)
                    if m and not line.lstrip().startswith(("--", "use ", "module ")):
                        names.update(w for w in m.group(2).split() if w not in ("pub", "abbrev", "unfoldable", "let"))
    return {n for n in names if not re.search(r"[:→≡=]", n) or "-" in n}


def foreign(text):
    """The names that a file imports from elsewhere than this repository."""
    found = set()
    for m in re.finditer(r"\buse\s+([\w.·◌'+-]+?)\.\{([^}]*)\}", text):
        parts = m.group(1).split(".")
        if not (parts[0] == "Rattle" and len(parts) > 1 and parts[1] in OWN):
            found.update(w.strip().split(" as ")[0] for w in m.group(2).split(","))
    return found


def turned(path, text, names):
    keep = foreign(text)
    made = set(re.findall(rf"goal\.({IDENT})", text)) if "/proofs/" in path else set()

    def one(m):
        word, at = m.group(0), m.start()
        if word not in names or word in keep or word in made:
            return word
        before = text[max(0, at - 2):at]
        if before.endswith(("c.", "l.")) and made:
            return word
        return names[word]

    return TOKEN.sub(one, text)


def main():
    own = defined()
    names = {n: respelt(n) for n in own if respelt(n) != n}
    for n, new in sorted(names.items()):
        if new in own:
            sys.exit(f"respell: {n} would fall together with {new}")
    twice = sorted(n for n in names if list(names.values()).count(names[n]) > 1)
    if twice:
        sys.exit(f"respell: fall together: {' '.join(twice)}")
    for path in files(".antt", ".rt", ".edit"):
        text = read(path)
        new = turned(path, text, names)
        if new != text:
            words = set(TOKEN.findall(text))
            for n in sorted(words & set(names)):
                if names[n] in words:
                    print(f"look: {path}: {n} and {names[n]} both stand here")
            with open(path, "w", encoding="utf-8") as f:
                f.write(new)
    print(f"respell: {len(names)} names")


main()
