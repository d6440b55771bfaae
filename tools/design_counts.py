#!/usr/bin/env python3
"""tools/design_counts.py: the counts and the lists of docs/DESIGN-PASS.md.

    python3 tools/design_counts.py lines [COMMIT ..]    lines that each pattern of the page matches in crates/*/src, a column for each commit
    python3 tools/design_counts.py lines -v COMMIT      the same of one commit, with each line
    python3 tools/design_counts.py read [COMMIT ..]     the second count, by what functions and types are made of
    python3 tools/design_counts.py facts [COMMIT ..]    what three or more functions ask for, and today's functions that do
    python3 tools/design_counts.py loops COMMIT         each loop that is no `for`
    python3 tools/design_counts.py changed OLD [NEW]    public functions, types, definitions and theorems that differ, old and new, in Markdown
    python3 tools/design_counts.py taken OLD [NEW]      functions that take a type with an invariant: old clause, new type, callers
    python3 tools/design_counts.py proofs OLD [NEW]     lines, answers and lemmas of each crate's proofs
    python3 tools/design_counts.py page OLD [NEW]       writes these lists into the page, each between its marks

A commit may be any that git knows; `.`, the default, is the tree as it stands.
"""
import contextlib
import io
import os
import re
import subprocess
import sys
from collections import Counter, defaultdict

TOP = os.path.dirname(os.path.dirname(os.path.realpath(__file__)))

# For each point, what is looked for and by which pattern. A line counts once, however often it matches.
PATTERNS = [
    ("1", "own enums of Option's shape", r"enum (Found|Given)\b"),
    ("1", "an answer as a number and a place beside it", r"^    pub (refusal|number): u32"),
    ("1", "functions that answer a refusal by its number", r"fn (shape|range|processors|method|room|words|columns|question|refine|result|horizon|between)_refusal\(|fn (columns_shape|first_of|take_apart)\("),
    ("1", "a refusal's number asked for", r"(refusal|number|shape) != 0"),
    ("1", "a flag, alone or beside a value", r"^    pub (moved: bool|wrong: u32|ended: u32)|(wrong|ended) != 0|wrong: u32\)"),
    ("1", "0 or 16 for none, 1 and 0 for yes and no", r"bound_or \(found_of|found_of\(|fn (all_marked|mark_of|lets_all)\(.*-> u32|all_marked\(.*== 1|fn digit_value\(.*-> u8"),
    ("1", "a method by its number", r"\bmethod: u32"),
    ("2", "triples taken apart by each entry", r"take_apart\("),
    ("2", "an entry, and the same of columns", r"fn (circuitrail_)?(one_row|refine|refine_rounds|refine_at_once|one_processor|density|write_result|first_outside)_columns\b|fn check_sizes\("),
    ("2", "the same function in two crates", r"fn (between_refusal|refuse|copy_front|judge|words_refusal|columns_refusal|refine_refusal|result_refusal)\("),
    ("2", "two that differ by a constant or an engine", r"fn (two_digits|six_digits|\w*refine_rounds\w*|\w*refine_at_once\w*)\("),
    ("2", "one shape of a body, twice (lines by row; a climb; a word or 0)", r"fn (put_rows|rta_row|busy_length|word_at|byte_at)\("),
    ("3", "loops that are no `for`", r"^ *('\w+: )?(while|loop)( |$)"),
    ("3", "counted by hand, up or down", r"[+-]= 1;"),
    ("4", "the library's methods written by hand", r"fn (less|lesser|larger|later|bound_or|last_length)\("),
    ("4", "copied and compared by hand", r"fn (copy_front|copy_back)\(|moved = true"),
    ("4", "conversions by functions", r"fn (found_of|outcome_number|outcome_value|reply_number|row_numbers|outcome_numbers|density_numbers)\("),
    ("4", "printing by pieces", r"say::(text|number|end)\(|\b(text|number)\(rt\b|\bend\(rt(\)|: &impl Print\))"),
    ("4", "a number widened by `as`", r"\bas u64\b|(digit_value|all_marked)\(.*\) as u32"),
    ("5", "columns even, in a clause", r"Even costs\.now deadlines\.now periods\.now"),
    ("5", "the sheet of three columns, in a clause", r"^ +(requires|ensures).*columns costs\.now deadlines\.now periods\.now"),
    ("5", "so many rows, beside the rows", r"^ +(pub )?count: u32|, count: u32|\(count: u32"),
    ("5", "processors in their range, in a clause", r"^ +requires.*(1 ≤ (sought\.)?processors|processors ≤ 64)"),
    ("6", "five arrays in a list of 320 words", r"≡ 320|; 320\]|\[at \+ (64|128|192|256)\]"),
    ("6", "notes of groups in two arrays", r"(since|most): &mut \[u32\]|(since|most) = \[.*; 16\]|(since|most)\[at\]"),
    ("6", "three arrays of 64 beside a count", r"let mut (costs|deadlines|periods) = \[0u32; 64\]"),
    ("6", "a count that is a list's length", r"length \w+(\.\w+)? ≡ (count|rows)\b|≤ length room"),
    ("7", "a switch on the method's number", r"method == 0"),
    ("7", "an engine by its own copy of the entry", r"fn (circuitrail_)?refine_(rounds|at_once)\w*\("),
]

# Types that hold a fact about their values, themselves or in a field.
INVARIANTS = ("Columns", "Checked", "Asked", "Bounded", "Prepared", "Pending", "Trial", "Sought", "Notes", "Way", "Capped", "Dropping", "Drops", "Spot")
# What a method was called while it was a function.
EARLIER = {
    "Way::cap": "cap_line", "Capped::term": "term_line", "Capped::other": "other_line", "Capped::sum": "sum_of_lines",
    "Spot::at": "spot_at", "Spot::allows": "row_allows",
}


def git(*words):
    return subprocess.run(["git", *words], cwd=TOP, stdout=subprocess.PIPE, check=True, encoding="utf-8").stdout


class Tree:
    """The files of crates/ at a commit, or as they stand."""

    def __init__(self, commit):
        self.commit = commit
        if commit == ".":
            names = git("ls-files", "-co", "--exclude-standard", "crates").split("\n")
            self.files = {name: self.now(name) for name in names if name.endswith((".rt", ".antt")) and os.path.exists(f"{TOP}/{name}")}
        else:
            names = [n for n in git("ls-tree", "-r", "--name-only", commit, "crates").split("\n") if n.endswith((".rt", ".antt"))]
            self.files = dict(zip(names, self.then(names)))

    def now(self, name):
        with open(f"{TOP}/{name}", encoding="utf-8") as f:
            return f.read()

    def then(self, names):
        asked = "".join(f"{self.commit}:{name}\n" for name in names).encode()
        said = subprocess.run(["git", "cat-file", "--batch"], cwd=TOP, input=asked, stdout=subprocess.PIPE, check=True).stdout
        at = 0
        for _ in names:
            end = said.index(b"\n", at)
            size = int(said[at:end].split()[-1])
            yield said[end + 1:end + 1 + size].decode()
            at = end + 2 + size

    def kind(self, kind, form):
        """The files of a kind (src, specs, proofs), each as its crate, its path and its text."""
        for name in sorted(self.files):
            parts = name.split("/")
            if parts[2] == kind and name.endswith(form):
                yield parts[1], "/".join(parts[2:]), self.files[name]


# ---- what a file of Rattle says

FUNCTION = re.compile(r'^( *)((?:pub(?:\(crate\))? )?)(?:const )?(?:extern "C" )?fn (\w+)')
OWNER = re.compile(r"^(?:pub(?:\(crate\))? )?(?:impl(?:<[^>]*>)? (?:.+ for )?|trait )(\w+)")
TYPE = re.compile(r"^(pub(?:\(crate\))? )?(struct|enum|trait) (\w+)")


class Function:
    def __init__(self, crate, path, line, owner, seen, name, told, body):
        self.crate, self.path, self.line, self.owner, self.seen, self.name, self.body = crate, path, line, owner, seen.strip(), name, body
        clause = next((k for k, each in enumerate(told) if re.match(r" *(requires|ensures)\b", each)), len(told))
        self.signature = re.sub(r"\(\s+", "(", re.sub(r",\s*\)", ")", re.sub(r"\s+", " ", " ".join(told[:clause])))).strip().rstrip("{;").strip()
        self.clauses = [each.strip().rstrip(",;") for each in told[clause:] if each.strip() not in ("{", ";")]
        self.at = f"{crate} {path}"

    @property
    def label(self):
        return f"{self.owner}::{self.name}" if self.owner else self.name

    def asks(self):
        return [each for each in self.clauses if each.startswith("requires")]


def functions(tree):
    for crate, path, text in tree.kind("src", ".rt"):
        lines, owner, at = text.split("\n"), None, 0
        while at < len(lines):
            line = lines[at]
            if line and not line.startswith((" ", "}", "//", "#")):
                opened = OWNER.match(line)
                owner = opened.group(1) if opened else None
            met = FUNCTION.match(line)
            if not met:
                at += 1
                continue
            indent, seen, name = met.groups()
            end = at
            while not (lines[end].rstrip() == indent + "{" or (lines[end].endswith(("{", ";")) and not re.match(r" *(requires|ensures)\b.*[^{]$", lines[end]))
                       or lines[end].endswith(("}",)) and end == at):
                end += 1
            told = lines[at:end + 1]
            close = end
            if not lines[end].endswith((";", "}")):
                while lines[close] != indent + "}":
                    close += 1
            yield Function(crate, path, at + 1, owner, seen, name, told, "\n".join(lines[end + 1:close]))
            at = close + 1


def types(tree):
    """Each type by its crate and name: where it stands, and its text without notes."""
    found = {}
    for crate, path, text in tree.kind("src", ".rt"):
        lines = text.split("\n")
        for at, line in enumerate(lines):
            met = TYPE.match(line)
            if not met or met.group(2) == "trait":
                continue
            end = at
            while not (lines[end].startswith("}") or lines[end].endswith(";")):
                end += 1
            derives = [lines[k] for k in range(at - 1, max(at - 4, -1), -1) if lines[k].startswith("#[")]
            body = [each for each in lines[at:end + 1] if not each.strip().startswith("//")]
            found[crate, met.group(3)] = (path, (met.group(1) or "").strip(), "\n".join(list(reversed(derives)) + body))
    return found


# ---- what a file of definitions or laws says

DEFINED = re.compile(r"^(?:abbrev |unfoldable )?pub (?:record |data |abbrev )?(\S+)")
LAW = re.compile(r"^( *)pub (\S+) :")


def definitions(tree):
    """Each public definition of specs by its crate and name: its file, and its text."""
    found = defaultdict(list)
    for crate, path, text in tree.kind("specs", ".antt"):
        for block in re.split(r"\n(?:[ \t]*\n)+", text):
            lines = [each for each in block.split("\n") if not each.strip().startswith("--")]
            head = next((k for k, each in enumerate(lines) if DEFINED.match(each)), None)
            if head is None:
                continue
            # Several short definitions may stand without a blank line between them.
            starts = [k for k, each in enumerate(lines) if DEFINED.match(each) and not each.startswith("pub mod")]
            for one, two in zip(starts, starts[1:] + [len(lines)]):
                found[crate, DEFINED.match(lines[one]).group(1)].append((path, "\n".join(lines[one:two]).rstrip()))
    return found


def laws(tree):
    """Each public theorem of proofs, but for the answers of functions, by its crate and name: its file, and its statement."""
    found = defaultdict(list)
    for crate, path, text in tree.kind("proofs", ".antt"):
        if path.endswith(("/Answers.antt", "/Invariants.antt", "/Proof.antt")):
            continue
        lines = text.split("\n")
        module, record = "", False
        for at, line in enumerate(lines):
            if line and not line.startswith(" "):
                record = bool(re.match(r"(pub )?record ", line))
                if record:
                    end = next((k for k in range(at + 1, len(lines)) if lines[k] and not lines[k].startswith(" ")), len(lines))
                    found[crate, re.match(r"(?:pub )?record (\S+)", line).group(1)].append((path, re.sub(r"\s+", " ", " ".join(lines[at:end])).strip()))
            if record:
                continue
            if line.startswith("module "):
                module = line
            elif line and not line.startswith((" ", "--")):
                module = "" if not line.startswith("module") else module
            met = LAW.match(line)
            if not met:
                continue
            indent = met.group(1)
            end = at + 1
            while end < len(lines) and lines[end].startswith(indent + " ") and lines[end].strip():
                end += 1
            said = re.sub(r"\s+", " ", " ".join(each.strip() for each in lines[at:end]))
            if indent and module:
                said = f"{module.replace(' where', '')} {said}"
            found[crate, met.group(2)].append((path, said))
    return found


# ---- the counts

def source(tree):
    for crate, path, text in tree.kind("src", ".rt"):
        for number, line in enumerate(text.split("\n"), 1):
            if not line.lstrip().startswith("//"):
                yield crate, path, number, line


def count_lines(trees, told):
    found = [[{(crate, path, number) for crate, path, number, line in source(tree) if re.search(pattern, line)} for tree in trees] for _, _, pattern in PATTERNS]
    print(f"| point | what | {' | '.join(tree.commit if tree.commit != '.' else 'now' for tree in trees)} |")
    print("|---|---|" + "---|" * len(trees))
    for at, (point, what, pattern) in enumerate(PATTERNS):
        print(f"| {point} | {what} | {' | '.join(str(len(each)) for each in found[at])} |")
        if at + 1 == len(PATTERNS) or PATTERNS[at + 1][0] != point:
            whole = [set().union(*(each[k] for each, one in zip(found, PATTERNS) if one[0] == point)) for k in range(len(trees))]
            print(f"| {point} | all, each line once | {' | '.join(str(len(each)) for each in whole)} |")
        if told:
            for crate, path, number, line in source(trees[-1]):
                if re.search(pattern, line):
                    print(f"      {crate}/{path}:{number}: {line.strip()[:150]}")


# Facts that have no name of their own: what is looked for in a `requires`.
UNNAMED = [
    ("cost ≤ period, 1 ≤ period, period ≤ 1_000_000", r"cost ≤ period"),
    ("at least one processor", r"1 ≤ (\w+\.)*processors"),
    ("at most 64 processors", r"processors ≤ 64"),
    ("X within 1_000_000", r"\bx ≤ 1_000_000"),
    ("a row that there is", r"\b(row|other|place) < (\(sheet\w* [\w.]+\)|s)\.rows"),
    ("a list as long as there are rows", r"length \w+\.\w+ ≡ (\(sheet\w* [\w.]+\)\.rows|s\.rows|n\b|count\b)"),
]


def facts(tree):
    """What the `requires` of three or more functions say, by the names of the records that say it, each with the crate and file that it is of."""
    stands, brought = defaultdict(set), {}
    for crate, path, text in tree.kind("src", ".rt"):
        found = re.findall(r"ghost use Rattle\.([\w.]+)\.\{([^}]*)\}", text)
        brought[crate, path] = {name.strip(): where for where, names in found for name in names.split(",")}
    for function in functions(tree):
        names = brought[function.crate, function.path]
        for clause in function.asks():
            for name in re.findall(r"\b[A-Z]\w+", clause):
                of = names.get(name, "").split(".")
                stands[f"{name} ({of[0]}, {of[-1]})" if len(of) > 1 else name].add(f"{function.crate}::{function.label}")
            for name, pattern in UNNAMED:
                if re.search(pattern, clause):
                    stands[name].add(f"{function.crate}::{function.label}")
    return {name: sorted(where) for name, where in stands.items() if len(where) > 2}


def loops(tree):
    for function in functions(tree):
        for number, line in enumerate(function.body.split("\n")):
            if re.match(r"\s*('\w+: )?(while|loop)\b", line):
                yield function, line.strip()


def parameters(function):
    inside = function.signature.partition(f"fn {function.name}")[2]
    if inside.startswith("<"):
        depth = 0
        for end, sign in enumerate(inside):
            depth += (sign == "<") - (sign == ">" and inside[end - 1] != "-")
            if not depth:
                inside = inside[end + 1:]
                break
    inside = inside.partition("(")[2]
    depth, end = 1, 0
    for end, sign in enumerate(inside):
        depth += sign in "("
        depth -= sign in ")"
        if not depth:
            break
    return inside[:end], inside[end + 1:]


def reading(tree):
    """What functions and types are made of, without regard to how their lines are written."""
    counts = Counter()
    every = list(functions(tree))
    shaped = types(tree)
    for (crate, name), (path, seen, text) in shaped.items():
        fields = set(re.findall(r"^    (?:pub )?(\w+):", text, re.M))
        if {"refusal", "place"} <= fields or {"number", "place"} <= fields:
            counts["1 structs with a number and a place" + (", for C" if "repr(C)" in text else "")] += 1
        if re.search(r"enum", text):
            arms = re.findall(r"^    (\w+)(\(.*\))?,", text, re.M)
            if len(arms) == 2 and sorted(bool(held) for _, held in arms) == [False, True]:
                counts["1 enums of one case with a value and one without"] += 1
            if len(arms) == 2 and all(held for _, held in arms):
                counts["1 enums of two cases with values"] += 1
    bodies = defaultdict(list)
    for function in every:
        takes, gives = parameters(function)
        names = re.findall(r"(\w+):", takes)
        if "Result<" in gives and "io::" not in gives:
            counts["1 functions that answer a Result"] += 1
        if "Option<" in gives:
            counts["1 functions that answer an Option"] += 1
        if re.search(r"\bmethod: u32", takes):
            counts["1 functions that take a method by its number"] += 1
        if {"costs", "deadlines", "periods"} <= set(names):
            counts["5 functions that take three columns"] += 1
        if re.search(r"&'?\w* ?(Columns|Asked)\b", takes):
            counts["5 functions that take rows as one value"] += 1
        if {"processors", "method"} <= set(names):
            counts["5 functions that take processors and a method"] += 1
        if len(names) > 6:
            counts["5 functions of more than six parameters"] += 1
        if "count" in names and "at" not in names:
            counts["6 functions that take a count"] += 1
        if "others" in names and re.search(r"\bleft: u32|: Pending\b", takes):
            counts["6 functions that take the rows kept, and how many of them beside"] += 1
        if function.name in ("put_rows", "put_result") and {"rows", "count"} & set(names):
            counts["6 functions that take how many rows, beside a list that says it"] += 1
        counts["3 loops by for"] += len(re.findall(r"^\s*for\b", function.body, re.M))
        counts["3 chains"] += len(re.findall(r"\.(all|any|find|map|sum|fold|enumerate|rev|zip)\(", function.body))
        for held in re.finditer(r"^( *)(?:'\w+: )?(?=(while .*|loop) \{\n(?P<inside>(?:.*\n)*?)\1\})", function.body + "\n", re.M):
            head = held.group(2)
            by_hand = any(re.search(rf"\b{name}\b", head) for name in re.findall(r"\b(\w+) [+-]= 1;", held.group("inside")))
            counts["3 loops that count an index by hand" if by_hand else "3 other loops"] += 1
        plain = re.sub(r"\s+", " ", function.body).strip()
        if len(plain) > 40:
            bodies[plain].append(function)
        if re.search(r"\b(\w+) < (\w+) \{ ?(\1|\2) ?\} else \{ ?(\1|\2) ?\}", plain):
            counts["4 a lesser or a larger by hand"] += 1
        if re.search(r"if (\w+) < (\w+) \{ ?0 ?\} else \{ ?\1 - \2 ?\}", plain):
            counts["4 a difference that stops at 0, by hand"] += 1
    twins = [each for each in bodies.values() if len(each) > 1]
    counts["2 functions whose body is another's, word for word"] = sum(map(len, twins))
    signs = defaultdict(list)
    for function in every:
        shape = re.sub(r"\b\d[\w_]*\b", "N", re.sub(r"_columns|_rounds|_at_once|two_|six_", "", re.sub(r"\s+", " ", function.body))).strip()
        if len(shape) > 40:
            signs[shape].append(function)
    for each in twins:
        print("   twins:", ", ".join(f"{f.crate}::{f.label}" for f in each))
    alike = [each for each in signs.values() if len(each) > 1]
    counts["2 functions that differ in a number or a suffix"] = sum(map(len, alike))
    for each in alike:
        print("   alike:", ", ".join(f"{f.crate}::{f.label}" for f in each))
    counts["functions"] = len(every)
    counts["with a contract"] = sum(1 for each in every if each.clauses)
    return counts


# ---- what changed

def fence(old, new):
    lines = ["```diff"]
    lines += [f"-{'' if each.startswith('#') else ' '}{each}" for text in old for each in text.split("\n")]
    lines += [f"+{'' if each.startswith('#') else ' '}{each}" for text in new for each in text.split("\n")]
    return "\n".join(lines + ["```"])


def by_place(tree, public):
    found = defaultdict(list)
    for function in functions(tree):
        if not public or function.seen == "pub":
            found[function.crate, function.label].append(function)
    return found


def same(one, other):
    return re.sub(r"\s+", " ", one).strip() == re.sub(r"\s+", " ", other).strip()


def changed(old, new):
    was, now = by_place(old, True), by_place(new, True)
    print("### Functions\n")
    for key in sorted(set(was) | set(now)):
        before, after = was.get(key, []), now.get(key, [])
        told = [[f.signature, *f.clauses] for f in before], [[f.signature, *f.clauses] for f in after]
        if told[0] == told[1]:
            continue
        where = " and ".join(sorted({f.path for f in before} | {f.path for f in after}))
        print(f"`{key[0]}::{key[1]}`{'' if before and after else ', gone' if before else ', new'} ({where})\n")
        flat = lambda each: [line for part in each for line in part]
        gone, come = flat(told[0]), flat(told[1])
        print(fence([x for x in gone if x not in come or not after], [x for x in come if x not in gone or not before]) + "\n")
    print("### Types\n")
    was, now = types(old), types(new)
    for key in sorted(set(was) | set(now)):
        before, after = was.get(key), now.get(key)
        if before and after and before[2] == after[2]:
            continue
        print(f"`{key[0]}::{key[1]}`{'' if before and after else ', gone' if before else ', new'}\n")
        print(fence([before[2]] if before else [], [after[2]] if after else []) + "\n")
    for title, reads in (("Definitions", definitions), ("Theorems", laws)):
        print(f"### {title}\n")
        was, now = reads(old), reads(new)
        added = defaultdict(list)
        for crate, name in sorted(set(now) - set(was)):
            added[crate].append(name)
        for crate, names in added.items():
            print(f"- new in `{crate}`: {', '.join(f'`{name}`' for name in names)}")
        print()
        for key in sorted(was):
            before = [text for _, text in was.get(key, [])]
            after = [text for _, text in now.get(key, [])]
            gone = [text for text in before if not any(same(text, other) for other in after)]
            come = [text for text in after if not any(same(text, other) for other in before)]
            if not gone and not come:
                continue
            files = " and ".join(sorted({path for path, _ in was.get(key, []) + now.get(key, [])}))
            moved = [crate for crate, name in now if name == key[1] and crate != key[0] and any(same(before[0], text) for _, text in now[crate, name])]
            print(f"`{key[0]}::{key[1]}`{'' if after else f', now in `{moved[0]}`' if moved else ', gone'} ({files})\n")
            print(fence(gone, come) + "\n")


def taken(old, new):
    was = defaultdict(list)
    for function in functions(old):
        was[function.crate, function.name].append(function)
    every = list(functions(new))
    made = defaultdict(list)
    for function in every:
        for name in INVARIANTS:
            if re.search(rf"\b{name} \{{", function.body) or name == function.owner and re.search(r"\bSelf \{", function.body):
                made[name].append(f"`{function.crate}::{function.label}`")
    for name in INVARIANTS:
        print(f"- `{name}` is built in {', '.join(made[name]) or 'no function'}")
    print("\n| function | old clause | new type, and clause | callers |\n|---|---|---|---|")
    for function in every:
        takes, _ = parameters(function)
        held = [name for name in INVARIANTS if re.search(rf"\b{name}\b", takes) or name == function.owner and re.search(r"\bself\b", takes)]
        if not held:
            continue
        before = was.get((function.crate, EARLIER.get(function.label, function.name)), [])
        clause = "; ".join(each for f in before for each in f.asks()) or ("none" if before else "new")
        crates = {function.crate} | {crate for crate, _, text in new.kind("src", ".rt") if re.search(rf"^pub use {function.crate}::", text, re.M)}
        callers = sorted({f"{f.crate}::{f.label}" for f in every if f is not function and re.search(rf"\b{function.name}\(", f.body)
                          and (f.crate == function.crate or (function.seen == "pub" or function.owner) and re.search(rf"\b({'|'.join(crates)})\b", new.files[f"crates/{f.crate}/{f.path}"]))})
        asks = "; ".join(function.asks()) or "none"
        bar = lambda text: text.replace("|", "\\|")
        print(f"| `{function.crate}::{function.label}` | {bar(clause)} | `{'`, `'.join(held)}`; {bar(asks)} | {', '.join(callers) or 'none'} |")


def proofs(old, new):
    def told(tree):
        lines, answers, lemmas = Counter(), Counter(), Counter()
        for crate, path, text in tree.kind("proofs", ".antt"):
            lines[crate] += len(text.rstrip("\n").split("\n"))
            if path.endswith(("/Answers.antt", "/Proof.antt")):
                answers[crate] += 1
            elif not path.endswith("/Invariants.antt"):
                lemmas[crate] += len(re.findall(r"^ *(?:pub )?[^\s:=]+ :", text, re.M))
        return lines, answers, lemmas
    was, now = told(old), told(new)
    print("| crate | lines | functions with answers | lemmas |\n|---|---|---|---|")
    for crate in sorted(set(was[0]) | set(now[0])):
        pairs = [(a[crate], b[crate]) for a, b in zip(was, now)]
        if any(a != b for a, b in pairs):
            print(f"| `{crate}` | " + " | ".join(f"{a} → {b}" for a, b in pairs) + " |")
    print("| all | " + " | ".join(f"{sum(a.values())} → {sum(b.values())}" for a, b in zip(was, now)) + " |")


MARKED = re.compile(r"(<!-- (\w+)[^\n]* -->\n).*?(\n<!-- end -->)", re.S)


def page(old, new):
    """Writes the generated blocks of the page anew."""
    makes = {"lines": lambda: count_lines([old, new], False), "taken": lambda: taken(old, new), "proofs": lambda: proofs(old, new), "changed": lambda: changed(old, new)}

    def block(met):
        with contextlib.redirect_stdout(io.StringIO()) as said:
            makes[met.group(2)]()
        return met.group(1) + said.getvalue().strip() + met.group(3)
    path = f"{TOP}/docs/DESIGN-PASS.md"
    with open(path, encoding="utf-8") as f:
        text = f.read()
    with open(path, "w", encoding="utf-8") as f:
        f.write(MARKED.sub(block, text))


def main():
    words = [each for each in sys.argv[1:] if each != "-v"]
    told = "-v" in sys.argv
    if not words:
        sys.exit(__doc__)
    what, *commits = words
    trees = [Tree(each) for each in commits or ["."]]
    if what == "lines":
        count_lines(trees, told)
    elif what == "read":
        columns = [reading(tree) for tree in trees]
        for key in sorted(set().union(*columns)):
            print(f"{key}: {' -> '.join(str(each[key]) for each in columns)}")
    elif what == "facts":
        told = [facts(tree) for tree in trees]
        for name in sorted(set().union(*told)):
            print(f"| {name} | {' | '.join(str(len(each.get(name, []))) for each in told)} | {', '.join(told[-1].get(name, []))} |")
    elif what == "loops":
        for function, line in loops(trees[0]):
            print(f"{function.crate}/{function.path}: {function.label}: {line}")
    elif what in ("changed", "taken", "proofs", "page"):
        {"changed": changed, "taken": taken, "proofs": proofs, "page": page}[what](trees[0], trees[1] if len(trees) > 1 else Tree("."))
    else:
        sys.exit(__doc__)


if __name__ == "__main__":
    main()
