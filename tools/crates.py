#!/usr/bin/env python3
"""Makes the lower part of docs/CRATES.md: every crate with its modules, part by part.

The parts and their crates are the items of the list under "The house" in README.md; the crates must be those of
crates.txt. What is said of a crate or a module is the first sentence of the comment on top of its file. What stands in
docs/CRATES.md above the mark is written by hand and kept.
"""
import re
import sys
import textwrap
from pathlib import Path

ROOT = Path(__file__).resolve().parent.parent
PAGE = ROOT / "docs" / "CRATES.md"
MARK = "<!-- From here on the page is made by tools/crates.py. -->"


def listed():
    """The crates of crates.txt."""
    lines = (ROOT / "crates.txt").read_text().splitlines()
    return [line.split(":")[0].strip() for line in lines if line.strip() and not line.startswith("#")]


def parts():
    """The parts of the house, each with what it has and its crates, from the list in README.md."""
    house = (ROOT / "README.md").read_text().split("\n## The house\n")[1].split("\n## ")[0]
    rows = re.findall(r"^- \*\*(.+?)\.\*\* (.*?): ((?:`\w+`[ \n]*)+)\.", re.sub(r"\n  ", " ", house), re.M)
    return [(name, has.strip(), re.findall(r"`(\w+)`", crates)) for name, has, crates in rows]


def said(path):
    """The first sentence of the comment on top of a file."""
    lines = []
    for line in path.read_text().splitlines():
        if not line.startswith("//"):
            break
        lines.append(line[2:].strip())
    if not lines:
        sys.exit(f"{path.relative_to(ROOT)} has no comment on top")
    return re.split(r"(?<=\.) (?=[A-Z`])", " ".join(lines))[0]


def item(indent, name, text):
    return textwrap.wrap(f"- `{name}`: {text}", 120, initial_indent=indent, subsequent_indent=indent + "  ",
                         break_long_words=False, break_on_hyphens=False)


def room(crate):
    """The lines of one crate: its own, and one for each module."""
    source = ROOT / "crates" / crate / "src"
    root = source / "lib.rt" if (source / "lib.rt").exists() else source / "main.rt"
    lines = item("", crate, said(root))
    modules = {"::".join(path.relative_to(source).with_suffix("").parts): path for path in source.rglob("*.rt")}
    for name, path in sorted(modules.items()):
        if path != root:
            lines += item("  ", name, said(path))
    return lines


def main():
    house = parts()
    named = [crate for _, _, crates in house for crate in crates]
    for crate in sorted(set(named) ^ set(listed())):
        sys.exit(f"{crate} stands in one of README.md and crates.txt only")
    for crate in named:
        if named.count(crate) > 1:
            sys.exit(f"{crate} stands in two parts of README.md")
    lines = [MARK, ""]
    for name, has, crates in house:
        lines += [f"## {name}", "", f"{has[0].upper()}{has[1:]}.", ""]
        for crate in crates:
            lines += room(crate)
        lines.append("")
    head = PAGE.read_text().split(MARK)[0]
    PAGE.write_text(head + "\n".join(lines).rstrip() + "\n")


main()
