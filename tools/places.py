#!/usr/bin/env python3
"""Counts, in crates/*/src, the places that docs/DESIGN-PASS.md speaks of.

    python3 tools/places.py [--list POINT] [COMMIT]

Without a commit it reads the files as they stand. It goes by the text alone: what it finds is a place to look at, and the
page says what became of it. What a command can't find by its shape (a number that means "none", a fact that a struct could
hold) is named in the page itself.
"""
import re
import subprocess
import sys
from collections import defaultdict
from pathlib import Path

ROOT = Path(__file__).resolve().parent.parent


def sources(commit):
    """The files of src/ with their text, in order."""
    if not commit:
        for f in sorted(ROOT.glob("crates/*/src/**/*.rt")):
            yield str(f.relative_to(ROOT)), f.read_text()
        return
    names = subprocess.run(["git", "ls-tree", "-r", "--name-only", commit, "crates"], cwd=ROOT, capture_output=True, text=True)
    for name in sorted(names.stdout.split()):
        if re.match(r"crates/\w+/src/.*\.rt$", name):
            text = subprocess.run(["git", "show", f"{commit}:{name}"], cwd=ROOT, capture_output=True, text=True).stdout
            yield name, text


def items(text, word):
    """The items of a kind: line, name, head and body."""
    pattern = rf"^( *)(?:pub(?:\(crate\))? )?{word} (\w+)"
    for m in re.finditer(pattern, text, re.M):
        end = re.compile(rf"^{m[1]}\}}", re.M).search(text, m.end())
        open_at = re.compile(rf"^{m[1]}\{{$|\{{$", re.M).search(text, m.end())
        if end and open_at and open_at.start() < end.start():
            line = text.count("\n", 0, m.start()) + 1
            yield line, m[2], text[m.start():open_at.start()], text[open_at.end():end.start()]


def variants(body):
    """The variants of an enum: each with its fields, if any."""
    body = re.sub(r"//[^\n]*", "", body)
    return re.findall(r"^    (\w+)(\([^\n]*\)| \{)?", body, re.M)


def shape(code):
    """A body with names, numbers and texts taken out."""
    code = re.sub(r"//[^\n]*", "", code)
    code = re.sub(r'b?"(?:[^"\\]|\\.)*"|b?\'(?:[^\'\\]|\\.)+\'', "S", code)
    code = re.sub(r"\b(?!if\b|else\b|match\b|let\b|mut\b|return\b|while\b|for\b|in\b|as\b)[A-Za-z_]\w*(?:::\w+)*", "N", code)
    return re.sub(r"\s+", " ", re.sub(r"\b\d\w*", "0", code)).strip()


def two_way_enums(files):
    """1: enums of two or three variants, of which one holds something."""
    for name, text in files:
        for line, enum, _, body in items(text, "enum"):
            v = variants(body)
            if 2 <= len(v) <= 3 and any(fields for _, fields in v):
                yield f"{name}:{line} {enum}"


def flags(files):
    """1: flags that say whether a value beside them counts, by their names."""
    for name, text in files:
        for line, struct, _, body in items(text, "struct"):
            for m in re.finditer(r"^\s+(?:pub )?(came|failed|fault|ended|last|more|ranged): bool", body, re.M):
                if struct != "Message":
                    yield f"{name}:{line} {struct}.{m[1]}"


def is_table(body):
    """A body that only matches one value and has a word, a number or a flag for each."""
    code = re.sub(r"//[^\n]*", "", body).strip()
    arms = re.match(r"match [\w.]+ \{\n(.*)\n +\}$", code, re.S)
    word = r"(?:\w+::)*\w+|b?'.'|(?:Some|Ok|Err)\((?:\w+::)*\w+\)"
    return bool(arms) and all(re.match(rf"\s*[^=]+ => (?:{word}),$", a) for a in arms[1].split("\n") if a.strip())


def alike(files):
    """2: functions of one shape, three lines and more, and structs and enums of the same names within: each but the first."""
    groups = defaultdict(list)
    for name, text in files:
        for line, item, head, body in items(text, "fn"):
            if len([r for r in body.split("\n") if r.strip()]) >= 3 and not is_table(body):
                groups["fn", shape(body)].append(f"{name}:{line} {item}")
        for line, item, head, body in items(text, "struct"):
            names = tuple(re.findall(r"^\s+(?:pub(?:\(crate\))? )?(\w+):", body, re.M))
            groups["struct", names].append(f"{name}:{line} {item}")
        for line, item, head, body in items(text, "enum"):
            groups["enum", tuple(variants(body))].append(f"{name}:{line} {item}")
    for group in groups.values():
        for place in group[1:]:
            yield f"{place} as {group[0]}"


def loops(files):
    """3: every `while` and `loop`."""
    for name, text in files:
        for i, row in enumerate(text.split("\n"), 1):
            if re.match(r"\s*(?:'\w+: )?(?:while |loop \{)", row):
                yield f"{name}:{i} {row.strip()}"


def by_hand(files):
    """4: functions that only match one value and give a word, a number or a flag for each, or only cast."""
    for name, text in files:
        for line, item, head, body in items(text, "fn"):
            code = re.sub(r"//[^\n]*", "", body).strip()
            if is_table(body) or re.match(r"\w+ as u\w+$", code) or re.match(r"if \w+ \{ \S+ \} else \{ \S+ \}$", code):
                yield f"{name}:{line} {item}"


def facts(files):
    """5: a requires that three or more functions of a crate have, numbers and names apart."""
    groups = defaultdict(list)
    for name, text in files:
        for line, item, head, body in items(text, "fn"):
            for clause in re.findall(r"requires(?: \w+)? \{ (.*) \}", head):
                groups[name.split("/")[1], shape(clause)].append(f"{name}:{line} {item}")
    for (crate, clause), places in groups.items():
        if len(places) >= 3:
            for place in places:
                yield f"{place}: {clause}"


def together(files):
    """5: functions that take a buffer and the place in it to go on at."""
    for name, text in files:
        for line, item, head, body in items(text, "fn"):
            if re.search(r"\w+: &mut \[u8\], at: usize", re.sub(r"\s+", " ", head)):
                yield f"{name}:{line} {item}"


def buffers(files):
    """6: structs that hold an array and a count of it, and enums of one, two and three of a thing."""
    for name, text in files:
        for line, struct, _, body in items(text, "struct"):
            if re.search(r": \[", body) and re.search(r": usize", body):
                yield f"{name}:{line} {struct}"
        for line, enum, _, body in items(text, "enum"):
            if re.search(r"One\((\w+)\),\s+Two\(\1, \1\)", body):
                yield f"{name}:{line} {enum}"


def needless(files):
    """Beside the points: locals that only name a field, fields named twice, and a result named to be given back."""
    for name, text in files:
        for i, row in enumerate(text.split("\n"), 1):
            if re.match(r"\s*let (\w+) = \w+\.\w+;$", row) or re.match(r"\s*(\w+): \1,$", row):
                yield f"{name}:{i} {row.strip()}"


def answers(commit):
    """8: files of answers and invariants that stand beside functions."""
    if commit:
        run = subprocess.run(["git", "ls-tree", "-r", "--name-only", commit, "crates"], cwd=ROOT, capture_output=True, text=True)
        names = run.stdout.split()
    else:
        names = [str(f.relative_to(ROOT)) for f in sorted(ROOT.glob("crates/*/proofs/**/*.antt"))]
    for name in names:
        if re.match(r"crates/\w+/proofs/.*/(Answers|Invariants)\.antt$", name):
            yield name


POINTS = {
    "1 enums": two_way_enums,
    "1 flags": flags,
    "2 alike": alike,
    "3 loops": loops,
    "4 by hand": by_hand,
    "5 facts": facts,
    "5 together": together,
    "6 buffers": buffers,
    "needless": needless,
}


def main():
    args = sys.argv[1:]
    wanted = None
    if args[:1] == ["--list"]:
        wanted, args = args[1], args[2:]
    commit = args[0] if args else None
    files = list(sources(commit))
    found = {point: list(find(files)) for point, find in POINTS.items()}
    found["8 answers"] = list(answers(commit))
    for point, places in sorted(found.items()):
        if wanted is None:
            print(f"{point}: {len(places)}")
        elif point.startswith(wanted):
            print("\n".join(places))


if __name__ == "__main__":
    main()
