#!/usr/bin/env python3
"""Brings the names that this repository defines in antt to snake case, once, after the toolchain's own script.

Run at the top of the repository, over the files that the toolchain's script has turned. What it renames:
- words in camel case that begin with a small letter (definitions, constructors, fields, variables): activeOf ->
  active_of;
- words with a dash that a file of specs/ or proofs/ (not of a function's proof) declares: in-bar -> in_bar; in a second
  pass those that stand further in, in a module of a file.
Names that come from a library keep their spelling, and so do functions of src/, strings, and comments but for names
that they cite, and what they quote of the paper. A lemma that would fall together with its definition gets the ending _lem,
a definition that would fall together with a word of a library _of, and both are reported.
"""
import os
import re
import sys

# The paper's own words, in what comments quote of it.
QUOTED = {"rejectedByNetwork", "rejectedByUser"}
# Lemmas in snake case already, in a file that names the definition of the new spelling too.
LEMMAS = {"no_place": "no_place_lem", "plain_rows": "plain_rows_lem"}
WORD = re.compile(r"(?<!\d)[A-Za-z_#κλ][\w'#]*(?:-[\w']+)*")
INNER = re.compile(r"(?<![\d.\w'-])[A-Za-z_][\w']*(?:-[\w']+)*(?![\w'-])")
USE = re.compile(r"^(?:ghost |pub )*use ([\w·.+'-]+)(?:\.\{([^}]*)\})?(?: as ([\w#'-]+))?", re.M)
MARKS = r"(?:(?:abbrev|unfoldable|opaque|pub) )*"
DECLARED = re.compile(
    r"^" + MARKS + r"([^\s:({=,;]+)((?: [^\s:({=,;]+)*) :(?!=)|^  (?:pub )?([^\s:({=,;]+) :(?!=)", re.M
)
DASHED = re.compile(r"^\s*" + MARKS + r"([a-z][\w']*(?:-[\w']+)+)((?: [^\s:({=,;]+)*) :(?!=)")


def files(root, *endings):
    for folder, dirs, names in os.walk(os.path.join(root, "crates")):
        dirs[:] = sorted(d for d in dirs if d != "out")
        for name in sorted(names):
            if name.endswith(endings):
                yield os.path.join(folder, name)


def read(path):
    with open(path, encoding="utf-8") as f:
        return f.read()


def own(module, crates):
    parts = module.split(".")
    return parts[0] == "Rattle" and len(parts) > 1 and parts[1] in crates


def snake(word):
    out = re.sub(r"(?<=[a-z0-9])([A-Z])", r"_\1", word)
    out = re.sub(r"([A-Z])([A-Z][a-z])", r"\1_\2", out)
    return out.lower()


def is_camel(word):
    return re.match(r"[a-z]", word) and re.search(r"[A-Z]", word) and "-" not in word


def inner(root):
    """A second pass, for names with a dash that stand further in, in a module of a file."""
    texts = {p: read(p) for p in files(root, ".antt")}
    declared = set()
    for p, t in texts.items():
        if os.path.basename(p) != "Proof.antt":
            for line in t.split("\n"):
                m = DASHED.match(line)
                if m and not line.startswith("use"):
                    declared.update(w for w in (m.group(1) + m.group(2)).split() if "-" in w)
    found = {p: set(INNER.findall(t)) for p, t in texts.items()}
    rename = {}
    for w in declared:
        new = w.replace("-", "_")
        rename[w] = new + "_lem" if any(w in f and new in f for f in found.values()) else new
    for p, t in texts.items():
        new = "\n".join(
            line if line.lstrip().startswith("--") else INNER.sub(lambda m: rename.get(m.group(0), m.group(0)), line)
            for line in t.split("\n")
        )
        if new != t:
            with open(p, "w", encoding="utf-8") as f:
                f.write(new)
    print(f"respell: {len(rename)} names further in")


def add(rename, taken, w, new, ending):
    """A name that would fall together with another gets an ending: a lemma that has its function's name _lem."""
    if new in taken:
        print(f"look: {w}: {new} is another name, so it is {new}{ending}")
        new += ending
    if new in taken:
        raise SystemExit(f"{w}: {new} is another name too")
    rename[w] = new
    taken.add(new)


def main(root):
    crates = set(os.listdir(os.path.join(root, "crates")))
    texts = {p: read(p) for p in files(root, ".antt", ".rt", ".edit")}
    foreign, words, declared = set(), set(), set()
    for p, t in texts.items():
        if p.endswith(".edit"):
            continue
        for m in USE.finditer(t):
            if not own(m.group(1), crates):
                for item in (m.group(2) or "").split(","):
                    foreign.update(item.split(" as ")[:1][0].split())
                foreign.update(m.group(1).split("."))
        if p.endswith(".antt"):
            words.update(WORD.findall(t))
            if os.path.basename(p) != "Proof.antt":
                for m in DECLARED.finditer(t):
                    for name in ((m.group(1) or "") + (m.group(2) or "") + " " + (m.group(3) or "")).split():
                        declared.add(name)
    dashed = sorted(w for w in words - foreign if "-" in w and w in declared and re.match(r"[a-z]", w))
    rename, taken = dict(LEMMAS), set(foreign)
    for w in sorted(words - foreign):
        if is_camel(w):
            add(rename, taken, w, snake(w), "_of")
    taken |= declared - set(dashed)
    for w in dashed:
        add(rename, taken, w, w.replace("-", "_"), "_lem")
    for p, t in texts.items():
        out = []
        for line in t.split("\n"):
            comment = line.lstrip().startswith(("--", "//"))

            def turn(m):
                w = m.group(0)
                if w in rename and not (comment and ("-" in w or w in QUOTED)) and not ("-" in w and p.endswith((".rt",))):
                    return rename[w]
                return w

            if p.endswith(".rt") and '"' in line:
                parts = re.split(r'("(?:[^"\\]|\\.)*")', line)
                line = "".join(x if x.startswith('"') else WORD.sub(turn, x) for x in parts)
            else:
                line = WORD.sub(turn, line)
            out.append(line)
        new = "\n".join(out)
        if new != t:
            with open(p, "w", encoding="utf-8") as f:
                f.write(new)
    print(f"respell: {len(rename)} names")


if __name__ == "__main__":
    where = sys.argv[1] if len(sys.argv) > 1 else "."
    main(where)
    inner(where)
