"""Holds STATED.md, CLAIMS.md and DEVELOPING.md against the heads of the files in crates/*/specs/ and the code.

A head says either Stated or Derived. STATED.md lists the stated files, each with its lines, and none uses one that stands later. A stated file uses definitions of stated files
alone, but for the names that STATED.md lists as standing for what the code gives. The column 'stated in' of CLAIMS.md names stated files alone.
DEVELOPING.md lists the functions with a `requires` that another crate can name.
Prints what is not so, and ends with status 1 where anything is not. With --count it first writes the numbers of lines into STATED.md."""
import pathlib
import re
import sys

ROOT = pathlib.Path(__file__).resolve().parent.parent
wrong = []


def head(text):
    lines = []
    for line in text.splitlines():
        if not line.startswith("--"):
            break
        lines.append(line)
    return " ".join(lines)


def uses(text, own):
    """The files of specs/ that a file uses, with the names that it takes from each."""
    for found in re.finditer(r"^use Rattle\.(\w+)\.specs\.(\w+)(?:\.\{([^}]*)\})?", text, re.M):
        crate, file, names = found.groups()
        if crate != "std" and file != "declared":
            yield f"{crate}/specs/{file}.antt", {name.split(" as ")[0].strip() for name in (names or "*").split(",")}


texts = {}
for path in sorted(ROOT.glob("crates/*/specs/*.antt")):
    if path.name != "Lib.antt":
        texts[f"{path.parts[-3]}/specs/{path.name}"] = path.read_text()

stated = set()
for name, text in texts.items():
    says = head(text)
    if ("Stated" in says) == ("Derived" in says):
        wrong.append(f"{name}: its head says not one of Stated and Derived")
    elif "Stated" in says:
        stated.add(name)

page = ROOT / "docs/STATED.md"
if "--count" in sys.argv[1:]:
    row = r"^(\| `(\w+/specs/\w+\.antt)` \|) \d+ \|"
    page.write_text(re.sub(row, lambda m: f"{m[1]} {len(texts.get(m[2], str()).splitlines())} |", page.read_text(), flags=re.M))
list_part, _, names_part = page.read_text().partition("## Names")
listed = {}
for name, lines in re.findall(r"^\| `(\w+/specs/\w+\.antt)` \| (\d+) \|", list_part, re.M):
    if name in listed:
        wrong.append(f"STATED.md: {name} stands twice")
    listed[name] = int(lines)
for name in sorted(stated ^ set(listed)):
    wrong.append(f"STATED.md: {name} is {'missing' if name in stated else 'not stated'}")
for name in sorted(stated & set(listed)):
    if len(texts[name].splitlines()) != listed[name]:
        wrong.append(f"STATED.md: {name} has {len(texts[name].splitlines())} lines")

places = list(listed)
for place, name in enumerate(places):
    for other, _ in uses(texts.get(name, ""), name):
        if other in places[place + 1:]:
            wrong.append(f"STATED.md: {name} uses {other}, which stands later")

allowed = {}
for name, names in re.findall(r"^\| `(\w+/specs/\w+\.antt)` \| ([^|]*) \|", names_part, re.M):
    allowed[name] = set(re.findall(r"`([^`]+)`", names))
used = {name: set() for name in allowed}
for name in sorted(stated):
    for other, names in uses(texts[name], name):
        if other not in stated:
            for one in sorted(names - allowed.get(other, set())):
                wrong.append(f"{name}: uses {one} of {other}, which is derived")
            if other in used:
                used[other] |= names
for name, names in allowed.items():
    for one in sorted(names - used[name]):
        wrong.append(f"STATED.md: no stated file uses {one} of {name}")

for line in (ROOT / "docs/CLAIMS.md").read_text().splitlines():
    cells = line.split(" | ")
    if line.startswith("| ") and len(cells) == 3:
        for name in re.findall(r"`([^`]+\.antt)`", cells[1]):
            if name not in stated:
                wrong.append(f"CLAIMS.md: stated in {name}, which is no stated file")

asking = set()
for path in sorted(ROOT.glob("crates/*/src/lib.rt")):
    crate = path.parts[-3]
    files = {"": path}
    for module in re.findall(r"^pub mod (\w+);", path.read_text(), re.M):
        files[f"{module}::"] = path.with_name(f"{module}.rt")
    for module, file in files.items():
        # a function's head ends at its `{`, which stands on a line of its own where there are clauses
        for function in re.finditer(r"^( *)pub (?:extern \"C\" )?fn (\w+)(.*?)(?: \{$|\n\1\{$)", file.read_text(), re.M | re.S):
            if re.search(r"^ *requires ", function.group(3), re.M):
                # a method goes by the type whose block it stands in
                blocks = re.findall(r"^impl(?:<[^>]*>)? (\w+)", file.read_text()[: function.start()], re.M)
                owner = f"{blocks[-1]}::" if function.group(1) and blocks else ""
                asking.add(f"{crate}::{module}{owner}{function.group(2)}")
told = set()
for cell in re.findall(r"^\| (`\w+::[^|]*) \|", (ROOT / "docs/DEVELOPING.md").read_text(), re.M):
    names = re.findall(r"`([^`]+)`", cell)
    told |= {name if "::" in name else f"{names[0].rpartition('::')[0]}::{name}" for name in names}
for name in sorted(asking ^ told):
    wrong.append(f"DEVELOPING.md: {name} {'is missing' if name in asking else 'has no requires'}")

for line in wrong:
    print(line)
sys.exit(1 if wrong else 0)
