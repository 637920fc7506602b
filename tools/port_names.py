#!/usr/bin/env python3
"""What bringing this repository to today's Rattle does beside the kit's port.py, at the top of the repository.

usage: python3 tools/port_names.py before    at the commit LANDED of docs/PORT.md, before port.py
       python3 tools/port_names.py after     on what port.py wrote

before: two proofs name variables of their own out_at, one_at and other_at, which are also names of today's library. From them port.py takes the whole
repository for one that was brought over already, and leaves most of its steps out. So the variables get other names.

after: every definition, lemma and field of the repository in snake case, as port.py left those that the library does not share. A lemma that would have the
name of a definition, or of an older lemma in snake case, ends in _lem.
"""

import collections
import os
import re
import sys

BEFORE = {
    "crates/demo_report/proofs/ledger/as_promised/Proof.antt": {"broken_at": "broken", "out_at": "out"},
    "crates/demo_report/proofs/ledger/in_both/Proof.antt": {"one_at": "one", "other_at": "other"},
}
# What a declaration looks like, at the head of a line or as a field.
DECLARES = re.compile(r"^\s*(?:unfoldable |abbrev |pub |data |record )*([^\s(){}:;,.]+)\s*:(?!=)")
# Names of proofs of functions, which Rattle makes: they keep their dashes.
PROOF_OF_A_FUNCTION = re.compile(r"crates/\w+/proofs/.+/(Proof|Answers|Invariants)\.antt$")
# These had dashes or capitals and got the names of definitions from port.py; the lemmas among them end in _lem.
LEMMAS_IN_SNAKE_CASE = {
    "crates/packing/proofs/Marks.antt": ("first_bit", "last_bit"),
    "crates/flat/proofs/Back.antt": ("numbers_fit",),
    "crates/demands/proofs/CallsForC.antt": ("read_number",),
}


def read(path):
    with open(path, encoding="utf-8") as file:
        return file.read()


def write(path, text):
    with open(path, "w", encoding="utf-8") as file:
        file.write(text)


def word(name):
    return re.compile(rf"(?<![\w'\u2032\-·₀-₉.◌]){re.escape(name)}(?![\w'\u2032\-·₀-₉◌])")


def before():
    for path, names in BEFORE.items():
        text = read(path)
        for old, new in names.items():
            text = word(old).sub(new, text)
        write(path, text)


def files(*endings):
    for top in ("crates", "docs"):
        for folder, folders, names in os.walk(top):
            folders[:] = sorted(it for it in folders if it != "out")
            for name in sorted(names):
                if name.endswith(endings):
                    yield os.path.join(folder, name)


def snake(name):
    name = re.sub(r"(?<=[a-z0-9])(?=[A-Z])", "_", name.replace("getD", "get_or").replace("-", "_"))
    return name.lower()


def declared():
    """The names that specs/ and proofs/ declare, each with the files that do."""
    found = collections.defaultdict(set)
    for path in files(".antt"):
        if PROOF_OF_A_FUNCTION.search(path):
            continue
        for line in read(path).splitlines():
            match = DECLARES.match(line)
            if match and not line.lstrip().startswith("--") and not re.search(r"\blet\b|λ", line[: match.end()]):
                found[match.group(1)].add(path)
    return found


def renamings():
    own = declared()
    turned = {name: snake(name) for name in own if re.match(r"[a-z]", name) and snake(name) != name}
    taken = set(own) | {new for old, new in turned.items() if "-" not in old}
    for old in [it for it in turned if "-" in it]:
        if turned[old] in taken:
            turned[old] += "_lem"
    fallen = [new for new, count in collections.Counter(turned.values()).items() if count > 1]
    if fallen:
        sys.exit(f"names that fall together: {fallen}")
    return turned


TOKEN = re.compile(r"(?<![\w'\u2032\-·◌])[a-z][\w'\u2032\-·₀-₉]*")


def turn(text, names, comment):
    """The text with the names turned; in comments only those in backticks, or in camel case, since prose has dashes too."""

    def named(match):
        return names.get(match.group(0), match.group(0))

    def in_prose(match):
        return named(match) if "-" not in match.group(0) else match.group(0)

    lines = []
    for line in text.split("\n"):
        at = line.find(comment) if comment else -1
        code, prose = (line, "") if at < 0 else (line[:at], line[at:])
        prose = re.sub(r"`[^`]*`", lambda it: TOKEN.sub(named, it.group(0)), TOKEN.sub(in_prose, prose))
        lines.append(TOKEN.sub(named, code) + prose)
    return "\n".join(lines)


def after():
    for path, lemmas in LEMMAS_IN_SNAKE_CASE.items():
        for lemma in lemmas:
            crate = path.split("/")[1]
            module = f"Rattle.{crate}.proofs.{os.path.basename(path)[:-5]}."
            for each in files(".antt"):
                text = read(each)
                if each == path or module in text:
                    write(each, word(lemma).sub(lemma + "_lem", text))
    every = renamings()
    for path in files(".antt", ".rt", ".edit", ".md"):
        text = read(path)
        names = every
        if PROOF_OF_A_FUNCTION.search(path):
            goals = {it.group(1) for it in map(DECLARES.match, text.splitlines()) if it}
            names = {old: new for old, new in every.items() if old not in goals}
        if path.endswith(".antt"):
            new = turn(text, names, "--")
        elif path.endswith(".rt"):
            new = turn(text, names, "//")
        elif path.endswith(".edit"):
            new = "\n".join(turn(line, names, "#" if line.startswith("#") else "--" if ".antt" in text else "//") for line in text.split("\n"))
        else:
            new = "\n".join(re.sub(r"`[^`]*`", lambda it: TOKEN.sub(lambda m: names.get(m.group(0), m.group(0)), it.group(0)), line) for line in text.split("\n"))
        if new != text:
            write(path, new)


if __name__ == "__main__":
    if sys.argv[1:] == ["before"]:
        before()
    elif sys.argv[1:] == ["after"]:
        after()
    else:
        sys.exit(__doc__)
