#!/usr/bin/env python3
"""Makes docs/made/TRIED.md: which wrong programs were tried, and what refuses each.

Run it after `.ci/run`, from anywhere: python3 tools/tried.py [FILE]. It reads the edits in crates/CRATE/must-fail/ and
the line that `rt ci` says of each, in FILE or else in target/ci.out, where `.ci/run` keeps all that it said.
"""
import re
import sys
import textwrap
from pathlib import Path

ROOT = Path(__file__).resolve().parent.parent
PAGE = ROOT / "docs" / "made" / "TRIED.md"
WIDTH = 120

INTRODUCTION = """\
# Wrong programs tried

This page is made by `tools/tried.py` from the edits in `crates/*/must-fail` and what the prover said of each
(`.ci/run`, then `python3 tools/tried.py`): change the edits, and not this page.

A name is that of a file in the crate's `must-fail/`. After it stands what the wrong program does or, after `broken:`,
the rule that does not hold in it; then what the prover refused first, a function and the goal that is left open or a lemma
that is false, of the crate's own. More may be refused behind it.
"""


def meaning(edit):
    """The comment on top of an edit."""
    first = edit.read_text().splitlines()[0]
    return first[1:].strip().rstrip(".") if first.startswith("#") else ""


def function_at(crate, file, line):
    """The function of a source file that a line is of; an attribute stands before its name, a clause after it."""
    name = None
    lines = (crate / file).read_text().splitlines()
    while lines[line - 1].lstrip().startswith("#["):
        line += 1
    for number, text in enumerate(lines, 1):
        start = re.match(r"\s*(?:pub(?:\(\w+\))? )?(?:const )?fn (\w+)", text)
        if start and (number <= line or name is None):
            name = start[1]
        if number >= line and name:
            break
    return name or file


def refusal(crate, said):
    """What refuses an edit, in the words of the page."""
    place = re.search(r"(?:\./)?((?:src|proofs|specs)/\S+?):(\d+):\d+: ?(?:error: )?(.*)", said)
    if not place:
        return said
    file, line, text = place[1], int(place[2]), place[3]
    goal = re.search(r"\(`([^`]+)`\)", text) if file.startswith("src/") else re.match(r"`([^`]+)`", text)
    of = file[len("proofs/") :].rsplit("/", 1)[0].replace("/", "::")
    if file.startswith("src/"):
        of = function_at(crate, file, line)
    elif not file.endswith(("Answers.antt", "Invariants.antt")):
        of = file.rsplit("/", 1)[1].removesuffix(".antt")
    return f"`{of}`, `{goal[1]}`" if goal else f"`{of}`"


def main():
    out = Path(sys.argv[1]) if len(sys.argv) > 1 else ROOT / "target" / "ci.out"
    said = dict(re.findall(r"^rt: must-fail (\S+)\.edit: (.*)$", out.read_text(errors="replace"), re.MULTILINE))
    lines, count = [INTRODUCTION], 0
    for crate in sorted((ROOT / "crates").iterdir()):
        edits = sorted((crate / "must-fail").glob("*.edit"))
        if edits:
            lines += [f"## `{crate.name}`: {len(edits)}", ""]
        for edit in edits:
            told = said.get(f"{crate.name}/{edit.stem}", "not tried")
            how = refusal(crate, told) if told.startswith("refused") else told
            text = f"- {edit.stem}: {meaning(edit)}. {how}"
            lines += textwrap.wrap(text, WIDTH, subsequent_indent="  ", break_long_words=False, break_on_hyphens=False)
            count += 1
        if edits:
            lines.append("")
    PAGE.parent.mkdir(exist_ok=True)
    PAGE.write_text("\n".join(lines).rstrip("\n") + "\n")
    print(f"docs/made/TRIED.md: {count} wrong programs")


if __name__ == "__main__":
    main()
