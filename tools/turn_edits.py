#!/usr/bin/env python3
"""tools/turn_edits.py: run once behind the Rattle kit's port/port.py and tools/respell.py, brings crates/*/must-fail/*.edit to today's spelling.

    python3 tools/turn_edits.py            turns each edit that reads as it did before the port
    python3 tools/turn_edits.py --check    turns nothing: says of each edit whether it fits today's files, and its names are in scope

An edit's pairs are `old:` and `new:`, each a text of one line, and each `old:` stands once in the file that is named before it. Both texts of a
pair are turned alike: names by tools/respelled.txt and by what stands today where they stood (the file as it was before the port and the file of
today are laid side by side, token by token), then the forms: `s .rows` is `s.rows`, `(s .rows)` is `s.rows` too, `now (x .entry)` of a clause is
`x.now` or `x.old`, `now (x .exit)` is `x.new`, `r` is `result`; a path into the older library is a name of today's Prelude. A pair that brings
in names of the older library (`use ..`) brings them in from the Prelude; where today's file has them already, there is no such pair.

A pair is taken only where its turned `old:` stands once in today's file, at the place where it stood before. Where one pair of a file is
not, the file stays as it is and is told, to be turned by hand.
"""
import difflib
import glob
import itertools
import os
import re
import subprocess
import sys

BEFORE = "ee1258221079dcd50b91cc8da964718f372b101e"
TOP = os.path.dirname(os.path.dirname(os.path.realpath(__file__)))
NAME = r"[A-Za-zℕ⊥λ_][\wℕ'′]*(?:-[A-Za-z][\w'′]*)*"
TOKEN = re.compile(rf"{NAME}|\d\w*|\.\w+|[^\s\w]")
PRELUDE = "Rattle.std.specs.Prelude"
OLDER = re.compile(r"\b(?:mathlib|Prim|lib)(?:\.[A-Z]\w*)+\.(\w+)")
OWN = re.compile(r"\bRattle·(\w+)((?:\.\w+)+)")


def before(path):
    ran = subprocess.run(["git", "show", f"{BEFORE}:{path}"], cwd=TOP, stdout=subprocess.PIPE, stderr=subprocess.DEVNULL, encoding="utf-8")
    return ran.stdout if ran.returncode == 0 else ""


def today(path):
    try:
        with open(f"{TOP}/{path}", encoding="utf-8") as f:
            return f.read()
    except OSError:
        return ""


def words(text):
    return [(m.group(), m.start()) for m in TOKEN.finditer(text)]


def told(text):
    """Returns a token in the form in which both spellings of it are one, as far as that can be said without knowing it."""
    return {"get_or": "getd", "◌": "_"}.get(text, text.replace("_", "").replace("-", "").replace("′", "'").lower())


def along(old, new):
    """Returns, by the places of the older text's tokens, the places of today's tokens that stand there now."""
    a, b = words(old), words(new)
    match = difflib.SequenceMatcher(None, [told(w) for w, _ in a], [told(w) for w, _ in b], autojunk=False)
    return {a[i + k][1]: b[j + k][1] for i, j, n in match.get_matching_blocks() for k in range(n)}


with open(f"{TOP}/tools/respelled.txt", encoding="utf-8") as f:
    RESPELLED = dict(line.split() for line in f if line.strip())
RESPELLED |= {"getD": "get_or"}


def names_of(old, new):
    """Returns what stands today for each name and number of a file, where that is one throughout and stands at its place."""
    there, found = {at: w for w, at in words(new)}, {}
    places = along(old, new)
    for word, at in words(old):
        if at in places and re.match(r"\w", word):
            found.setdefault(word, set()).add(there[places[at]])
    return {word: made.pop() for word, made in found.items() if len(made) == 1}


def imported(text):
    return {part for listed in re.findall(r"^(?:ghost )?use \S+?\.\{(.*?)\};?$", text, re.M) for part in re.split(r", | as ", listed)}


def tight(text):
    """Returns an expression with its projections written tight, and with no brackets round a projection that stands alone in them."""
    text = re.sub(r"(?<=[\w')]) \.(?=[a-z])", ".", text)
    while True:
        made = re.sub(r"(?<![\w.])\((\w+(?:\.\w+)+)\)", r"\1", text)
        for at in [m.start() for m in re.finditer(r"(?<![\w.])\(\(", made)]:
            depth, inner = 0, None
            for to in range(at, len(made)):
                depth += {"(": 1, ")": -1}.get(made[to], 0)
                if depth == 1 and made[to] == ")" and inner is None:
                    inner = to
                if depth == 0:
                    break
            else:
                continue
            if inner and re.fullmatch(r"(?:\.\w+)+", made[inner + 1 : to]):
                made = made[:at] + made[at + 1 : to] + made[to + 1 :]
                break
        if made == text:
            return made
        text = made


def turned(text, names, file, entries):
    """Returns a text of an edit in today's spelling: `entries` says of each parameter whether what stood on entry is read by `now` or by `old`."""
    scope = imported(file)
    text = OWN.sub(lambda m: m[2].split(".")[-1] if m[2].split(".")[-1] in scope else f"Rattle.{m[1]}{m[2]}", text)
    text = OLDER.sub(lambda m: m[1] if m[1] in scope else f"{PRELUDE}.{m[1]}", text)
    text = re.sub(r"now \((\w+) \.entry\)", lambda m: f"({m[1]} .{entries[m[1]]})", text)
    text = re.sub(r"now \((\w+) \.exit\)", r"(\1 .new)", text)
    text = tight(text)
    return TOKEN.sub(lambda m: RESPELLED.get(m[0], names.get(m[0], m[0])), text)


def clause(text):
    return re.sub(r"(?<![\w.])r(?![\w.'])", "result", text)


def brought_in(old, new, file):
    """Returns today's pairs for one that brings in names of the older library: one, or none where the names are in scope."""
    added = [name for name in re.findall(r"[^\s,{}]+", new[new.index("{") :]) if name not in old]
    added = [name.replace("_", "◌") if not re.search(r"\w", name.replace("_", "")) else name for name in added]
    added = [name for name in added if name not in imported(file)]
    line = re.search(rf"^(?:ghost )?use {PRELUDE}\.\{{.*\}};?$", file, re.M)
    if not line:
        return None
    return [(line[0], line[0].replace("}", "".join(f", {name}" for name in added) + "}"))] if added else []


def pairs_of(text):
    """Returns an edit's lines as they are, with each pair as (path, old, new) in place of its second line."""
    made, path, old = [], "", None
    for line in text.split("\n"):
        if line.startswith("file: "):
            path = line[len("file: ") :].strip()
            made.append(line)
        elif line.startswith("old: "):
            old = line[len("old: ") :]
        elif line.startswith("new:"):
            made.append((path, old, line[len("new:") :].removeprefix(" ")))
        else:
            made.append(line)
    return made


def stands(at, long, places):
    """Returns whether most of the places, and one at least, lie in a text."""
    return 2 * sum(at <= place < at + long for place in places) > len(places)


def turn(edit):
    """Returns an edit in today's spelling, and what could not be turned."""
    crate = os.path.dirname(os.path.dirname(edit))
    was, now, made, left = {}, {}, [], []
    for line in pairs_of(before(edit)):
        if isinstance(line, str):
            made.append(line)
            continue
        path, old, new = line
        if path not in was:
            was[path], now[path] = before(f"{crate}/{path}"), today(f"{crate}/{path}")
        names = names_of(was[path], now[path])
        if old.startswith("use "):
            pairs = brought_in(old, new, now[path])
            if pairs is None:
                left.append(f"{path}: {old}")
                continue
            was[path] = was[path].replace(old, new)
        else:
            if was[path].count(old) != 1:
                left.append(f"{path}: it stood {was[path].count(old)} times: {old}")
                continue
            at = was[path].find(old)
            places = [b for a, b in along(was[path], now[path]).items() if at <= a < at + len(old)]
            tries = [(old, new)] if path.endswith(".rt") else []
            lent = sorted(set(re.findall(r"now \((\w+) \.entry\)", old + new)))
            for entries in itertools.product(("now", "old"), repeat=len(lent)):
                one = tuple(turned(text, names, now[path], dict(zip(lent, entries))) for text in (old, new))
                tries += [one, tuple(clause(text) for text in one)] if path.endswith(".rt") else [one]
            good = [(a, b) for a, b in tries if now[path].count(a) == 1 and stands(now[path].find(a), len(a), places)]
            if not good:
                left += [f"{path}: {old}", *dict.fromkeys(f"    stands {now[path].count(a)} times, or elsewhere: {a}" for a, _ in tries)]
                continue
            was[path] = was[path].replace(old, new)
            pairs = good[:1]
        for a, b in pairs:
            now[path] = now[path].replace(a, b)
            made += [f"old: {a}", f"new: {b}" if b else "new:"]
    return "\n".join(made), left


def named(text):
    """Returns the names that a text uses: no fields, numbers and byte literals, none that it binds by λ, and no paths that say where a name is from."""
    text = re.sub(r"(?m)--.*$|//.*$|b'(?:.|\\.)'|Rattle\.(?:\w+\.)+\w+", " ", text)
    bound = set(re.findall(r"λ (\w+)", text))
    return [w for w in re.findall(rf"(?<![\w'.])(?:{NAME})", text) if w not in bound and w != "λ"]


def fits(edit):
    """Returns what is wrong with an edit as it stands: an old text that is not there once, or a name or sign that may not be in scope there."""
    crate, texts, wrong, pairs = os.path.dirname(os.path.dirname(edit)), {}, [], 0
    all_pairs = [line for line in pairs_of(today(edit)) if not isinstance(line, str)]
    uses = "\n".join(new for _, _, new in all_pairs if new.startswith("use "))
    for path, old, new in all_pairs:
        pairs += 1
        text = texts.setdefault(path, today(f"{crate}/{path}"))
        if text.count(old) != 1:
            wrong.append(f"{path}: stands {text.count(old)} times: {old}")
            continue
        if old == new:
            wrong.append(f"{path}: changes nothing: {old}")
        strange = [w for w in dict.fromkeys(named(new)) if w not in {*named(f"{text}\n{uses}"), *re.findall(r"λ (\w+)", text)}]
        if path.endswith(".antt") and not old.startswith("use "):
            strange += [sign for sign in sorted(set(re.findall(r"\+\+|&&|==|[-+*/%≤<≡∷]", new))) if f"◌{sign}◌" not in imported(text)]
        if strange:
            wrong.append(f"{path}: not in scope, as far as the file's text shows: {', '.join(strange)}")
        texts[path] = text.replace(old, new)
    return pairs, wrong


def main(args):
    edits = sorted(os.path.relpath(path, TOP) for path in glob.glob(f"{TOP}/crates/*/must-fail/*.edit"))
    if args == ["--check"]:
        said = {edit: fits(edit) for edit in edits}
        for edit, (_, wrong) in said.items():
            for it in wrong:
                print(f"{edit}: {it}")
        print(f"{len(edits)} edits, {sum(pairs for pairs, _ in said.values())} pairs, {sum(bool(wrong) for _, wrong in said.values())} edits told above")
        return
    count, same = 0, 0
    for edit in edits:
        if today(edit) != before(edit):
            continue
        text, left = turn(edit)
        for it in left:
            print(f"{edit}: {it}")
        if left:
            continue
        if text == before(edit):
            same += 1
            continue
        count += 1
        with open(f"{TOP}/{edit}", "w", encoding="utf-8") as f:
            f.write(text)
    print(f"{count} edits turned, {same} stand as they were")


if __name__ == "__main__":
    main(sys.argv[1:])
