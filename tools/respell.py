#!/usr/bin/env python3
"""Gives the repository's own definitions and lemmas the spelling of today's Rattle, and crate json its new name.

usage: python3 tools/respell.py [--list]       at the top; --list prints old and new names and changes nothing

Run it once, after the kit's port.py and before any edit by hand. A name of specs/ or proofs/ that has capitals inside is written in snake case (tableIn
becomes table_in); the parts of a lemma's name keep the dashes between them; a dash inside a definition, constructor or field of specs/ becomes an underscore.
Names of src/, of types and of facts stay. Comments, pages and must-fail edits follow: in their text a name with a dash is changed between backticks only.
"""
import collections
import glob
import os
import re
import sys

# a library of the kit has the old name
CRATES = {"json": "json_text"}
# names that would fall together with another one, or with a field
CHOSEN = {
    "ofWord": "word_has_kind",
    "ofArray": "is_array_edge",
    "tooMany": "has_too_many",
    "byFault": "advanced_by_fault",
    "keyLen": "kept_key_len",
    "readsOn": "is_reading",
    "is-whole": "row_whole",
    "not-whole": "row_not_whole",
    "goesOn": "reading_on",
    "edgeLine": "line_of_edge",
    "endLine": "line_of_end",
    "inOrder": "is_in_order",
    "inToken": "is_in_token",
    "is-string": "value_string",
    "is-empty-array": "value_empty_array",
    "is-array": "value_array",
    "is-empty-object": "value_empty_object",
    "is-object": "value_object",
    "someDigits": "has_some_digits",
    "cornersLeft": "left_corners",
    "isDigit1-9": "is_digit_1_9",
}
# lemmas of one file whose names a definition gets
FIRST = {
    "crates/text/proofs/DecimalLaws.antt": {"is_digit": "is_digit-digit"},
    "crates/pass/proofs/KeepLaws.antt": {"key_step": "key_step-kept"},
    "crates/stream/proofs/PairLaws.antt": {"step_by": "step_of-into"},
}
APART = r"[^\s(){}\[\];,.:`\"|=⌜⌝!?&#<>]+"
DECLARED = re.compile(r"^\s*(?:(?:unfoldable|abbrev|pub|data|record)\s+)*([^:=λ→(){}⌜]*?)\s*(?:[({].*?[)}]\s*)*:\s")
FOLDER = re.compile(r"crates/([a-z_0-9]+)")


def read(path):
    with open(path, encoding="utf-8") as f:
        return f.read()


def snake(name):
    return re.sub(r"([a-z0-9'])([A-Z]+)", lambda m: m.group(1) + "_" + m.group(2).lower(), name)


def is_plain(word):
    return re.fullmatch(r"[A-Za-zℕℤ][A-Za-z0-9_'\-→ℕℤ]*", word) is not None


def names():
    """The names declared in specs/ and proofs/, each with its files."""
    found = collections.defaultdict(set)
    for folder in ("specs", "proofs"):
        for path in glob.glob(f"crates/*/{folder}/**/*.antt", recursive=True):
            for line in read(path).split("\n"):
                if line.lstrip().startswith(("--", "use ")):
                    continue
                m = DECLARED.match(line + " ")
                for word in m.group(1).split() if m else ():
                    if is_plain(word):
                        found[word].add(path)
    return found


def respelled(name, files):
    if name in CHOSEN:
        return CHOSEN[name]
    if not name[0].islower():
        return name
    parts = name.split("-")
    new = "-".join(snake(p) if p[:1].islower() or p[:1].isdigit() else p for p in parts)
    if any("/specs/" in f for f in files):
        new = new.replace("-", "_").lower()
    return new


def turned(text, to):
    return re.sub(APART, lambda m: to.get(m.group(0), m.group(0)), text)


def in_ticks(text, to):
    return re.sub(r"`[^`\n]+`", lambda m: turned(m.group(0), to), text)


def capitals(to):
    return {k: v for k, v in to.items() if re.search(r"[a-z0-9][A-Z]", k)}


def antt(text, to):
    """Code with every name, comments with names that cannot be words."""
    out = []
    for line in text.split("\n"):
        m = re.match(r"^(.*?)(--(?: .*)?)?$", line) if "--" in line else None
        code, said = (m.group(1), m.group(2) or "") if m else (line, "")
        out.append(turned(code, to) + in_ticks(turned(said, capitals(to)), to))
    return "\n".join(out)


def rt(text, to):
    out = []
    for line in text.split("\n"):
        m = re.match(r"^(.*?)(//.*)?$", line)
        code, said = m.group(1), m.group(2) or ""
        clause = re.match(r"^\s*(ghost |requires|ensures|pub ghost)", code)
        out.append(turned(code, to if clause else capitals(to)) + in_ticks(turned(said, capitals(to)), to))
    return "\n".join(out)


def page(text, to, declared):
    """A page, which also names what port.py has turned already."""
    def now(m):
        word = m.group(0)
        new = "-".join(snake(p) for p in word.split("-"))
        return to.get(word) or (new if new != word and word[0].islower() and new in declared else word)
    text = re.sub(APART, lambda m: now(m) if re.search(r"[a-z0-9][A-Z]", m.group(0)) else m.group(0), text)
    for old, new in CRATES.items():
        text = re.sub(rf"`{old}(?=[/:`])", f"`{new}", text)
    return in_ticks(text, to)


def edit(text, to):
    """An edit of antt with every name, one of Rust as Rust."""
    of_antt = re.search(r"^file: .*\.antt\s*$", text, re.M)
    return "\n".join(("file: " + x[6:] if x.startswith("file: ") else (turned(x, to) if of_antt and not x.startswith("#") else rt(x, to))) for x in text.split("\n"))


def crate_names(text):
    for old, new in CRATES.items():
        text = re.sub(rf"(?<![\w.])Rattle\.{old}\.", f"Rattle.{new}.", text)
        text = re.sub(rf"(?<![\w./]){old}::(?=[a-z])", f"{new}::", text)
        text = re.sub(rf"(?<![\w])crates/{old}/", f"crates/{new}/", text)
    return text


def write(path, text, now):
    if now != text:
        with open(path, "w", encoding="utf-8") as f:
            f.write(now)


def main():
    to = {}
    found = names()
    for name, files in sorted(found.items()):
        new = respelled(name, files)
        if new != name:
            to[name] = new
    together = collections.defaultdict(set)
    first = {x for m in FIRST.values() for x in m}
    for name in found:
        together[to.get(name, name)].add(name)
    for new, olds in sorted(together.items()):
        if len(olds) > 1 and not olds & first:
            print(f"together: {new}: {' '.join(sorted(olds))}", file=sys.stderr)
    if "--list" in sys.argv[1:]:
        for name, new in sorted(to.items()):
            print(name, new)
        return
    declared = {to.get(name, name) for name in found}
    pages = lambda text, to: page(text, to, declared)
    for pattern, turn in (
        ("crates/*/specs/**/*.antt", antt),
        ("crates/*/proofs/**/*.antt", antt),
        ("crates/*/src/**/*.rt", rt),
        ("crates/*/must-fail/*.edit", edit),
        ("README.md", pages),
        ("docs/*.md", pages),
        ("docs/changes/*.md", pages),
        ("tests/differ/README.md", pages),
        ("bench/README.md", pages),
    ):
        for path in sorted(glob.glob(pattern, recursive=True)):
            text = read(path)
            now = text
            for old, new in FIRST.get(path, {}).items():
                now = turned(now, {old: new})
            write(path, text, crate_names(turn(now, to)))
    for old, new in CRATES.items():
        if os.path.isdir(f"crates/{old}"):
            os.rename(f"crates/{old}", f"crates/{new}")
        text = read("crates.txt")
        write("crates.txt", text, re.sub(rf"(?<![\w]){old}(?![\w])", new, text))


if __name__ == "__main__":
    main()
