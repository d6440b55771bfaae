#!/usr/bin/env python3
"""tools/respell.py: run once behind the Rattle kit's port/port.py, brings this repository's own definitions and lemmas to today's spelling.

Words are in snake case, so `sheetOf` is `sheet_of`; types and modules keep their capitals. In a lemma's name a dash joins two words that are
names themselves, of a definition or of the library, and every other dash is an underscore. Functions of src/, exported C names, strings and
inputs keep theirs. Two names that would fall together are told, and then nothing is written. What was respelled stands in
tools/respelled.txt, and where that is there it decides, so that an older tree is respelled alike.
"""
import glob
import os
import re
import sys

LISTED = os.path.join(os.path.dirname(os.path.realpath(__file__)), "respelled.txt")
IDENT = re.compile(r"(?<![0-9A-Za-z_'])[A-Za-z_ℕℤ≤≡◌₂][A-Za-z0-9_'ℕℤ≤≡◌₂]*(?:-[A-Za-z0-9_'ℕℤ≤≡◌₂*+]+)*")
CAMEL = re.compile(r"^[a-z][a-z0-9_']*(?:[A-Z][A-Za-z0-9_']*)+$")
KIT_USE = re.compile(r"^(?:ghost )?use (?!Rattle\.(?:%s)\.)(\S+?)\.\{(.*?)\};?$" % "|".join(p.split("/")[1] for p in glob.glob("crates/*")), re.M)
OWN_USE = re.compile(r"^(?:ghost )?use Rattle\.(?:%s)\.(\S+?)\.\{(.*?)\};?$" % "|".join(p.split("/")[1] for p in glob.glob("crates/*")), re.M)


def names_of(listed):
    return {part for item in listed.split(",") for part in item.replace(" as ", " ").split()}


def snake(name):
    return re.sub(r"(?<=[a-z0-9A-Z])([A-Z])", lambda m: "_" + m.group(1).lower(), name)


def read(path):
    with open(path) as f:
        return f.read()


meaning = sorted(glob.glob("crates/*/specs/**/*.antt", recursive=True) + glob.glob("crates/*/proofs/*.antt"))
walks = sorted(set(glob.glob("crates/*/proofs/**/*.antt", recursive=True)) - set(meaning))
sources = sorted(glob.glob("crates/*/src/**/*.rt", recursive=True))
text = {path: read(path) for path in meaning + walks + sources}

# a local fact and a clause's label, as port.py spelled them, make way for the definitions `is_found` and `words_after`
for path, before, after in [("crates/refinement/proofs/Steps.antt", r"\bis_found\b", "was_found")] + [(path, r"ensures words_after\b", "ensures words_left") for path in sources]:
    text[path] = re.sub(before, after, text[path])

kit = set()
for path in text:
    for _, listed in KIT_USE.findall(text[path]):
        kit |= names_of(listed)

# the words that a dash may join: definitions, types, and the library's own
words = {m for path in meaning if "/specs/" in path for m in re.findall(r"^(?:unfoldable |abbrev )?pub (?:record )?([^\s:]+)", text[path], re.M)}
words |= {name for name in kit if re.fullmatch(r"[a-z_]+", name)}
words = {snake(word) for word in words}

tokens = {path: set(IDENT.findall(re.sub(r"--.*|//.*", "", text[path]))) for path in text}
everywhere = set().union(*tokens.values())
own = set().union(*(tokens[path] for path in meaning)) - kit


def respelled(name):
    if "-" not in name:
        return snake(name) if CAMEL.match(name) else name
    parts = [snake(p) if CAMEL.match(p) else p for p in name.split("-")]
    parts = [p.lower() if p == "Holds" else p for p in parts]
    made = parts[0]
    for before, part in zip(parts, parts[1:]):
        made += ("-" if before in words and part in words or part[0].isupper() or before[0].isupper() else "_") + part
    return made


renamed = {name: respelled(name) for name in own if respelled(name) != name}
for path in sources:
    for _, listed in OWN_USE.findall(text[path]):
        renamed |= {name: respelled(name) for name in names_of(listed) if respelled(name) != name}
fields = {m for path in meaning for m in re.findall(r"^\s+pub ([^\s:]+) :", text[path], re.M)}

# Two names fall together where one file has both: then a law takes `_lem`, and whatever else does is told. A field behind a dot hides nothing.
FREE = re.compile(r"(?<![\w'.-])(" + IDENT.pattern + ")")
bare = {path: set(FREE.findall(re.sub(r"--.*", "", text[path]))) for path in meaning + walks}
for path in sources:
    signatures = re.findall(r"fn \w+\((.*?)\)", text[path], re.S)
    clauses = "".join(re.findall(r"(?:requires|ensures).*|ghost use .*", text[path]))
    bare[path] = set(FREE.findall(clauses)) | {name for it in signatures for name in re.findall(r"(\w+):", it)}
laws = {m for path in meaning if "/proofs/" in path for m in re.findall(r"^\s*(?:pub )?([^\s:(]+) :", text[path], re.M)}


def clashes(name, new):
    """The files that have a name and what it would fall together with."""
    return [path for path in bare if name in bare[path] and any(o != name and renamed.get(o, o) == new for o in bare[path])]


renamed["at-once"] = "by_at_once"
together = []
for name in sorted(renamed):
    if clashes(name, renamed[name]):
        if name in laws and "-" in name:
            renamed[name] += "_lem"
for name in sorted(renamed):
    for path in clashes(name, renamed[name]):
        together.append(f"{name} -> {renamed[name]} in {path}")
if together and not os.path.exists(LISTED):
    print("fall together:\n" + "\n".join(together))
    sys.exit(1)


if os.path.exists(LISTED):
    renamed = dict(line.split() for line in read(LISTED).splitlines())
else:
    with open(LISTED, "w") as f:
        f.write("".join(f"{name} {new}\n" for name, new in sorted(renamed.items())))


def turn(body, allowed):
    """A text with its names respelled, comments aside."""
    lines = []
    for line in body.split("\n"):
        code, mark, comment = re.match(r"(.*?)((?:^|(?<=\s))(?:--|//)(?=\s)|$)(.*)", line).groups()
        lines.append(IDENT.sub(lambda m: renamed[m.group()] if m.group() in allowed else m.group(), code) + mark + comment)
    return "\n".join(lines)


for path in text:
    if path in walks:
        listed = set().union(*(names_of(names) for _, names in OWN_USE.findall(text[path])), set())
        allowed = {name for name in renamed if name in listed or name in fields or CAMEL.match(name)}
    elif path in sources:
        allowed = {name for name in renamed if CAMEL.match(name) or name in set().union(*(names_of(n) for _, n in OWN_USE.findall(text[path])), set())}
    else:
        allowed = set(renamed)
    with open(path, "w") as f:
        f.write(turn(text[path], allowed))
print(f"{len(renamed)} names respelled")
