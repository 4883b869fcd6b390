#!/usr/bin/env python3
"""Makes docs/made/CONTRACTS.md: every public function with the form of its contract.

Run it from anywhere: python3 tools/contracts.py. The forms are those of crates/demands/specs/OneReply.antt, where it is
proved of each that two replies to one input are the same.
"""
import re
import textwrap
from pathlib import Path

ROOT = Path(__file__).resolve().parent.parent
PAGE = ROOT / "docs" / "made" / "CONTRACTS.md"
WIDTH = 120

INTRODUCTION = """\
# Public functions by the form of their contract

This page is made from the sources by `python3 tools/contracts.py`: change them, and not this page. Of each of the first
six forms `crates/demands/specs/OneReply.antt` says, and `crates/demands/proofs/OneReply.antt` proves, that two replies
to one input are the same, and what is lent too. No public function has a `requires`. The functions of a public trait
are listed by the contract that the trait gives them, and those that make a trait of the library's so under Given; what
a derive writes is the library's.
"""

# a form, the head of its contract, and what it says
FORMS = (
    ("Value", None, "The result, or what is lent at the end, is a definition's value of what went in."),
    ("Written", "Written", "A piece goes into lent memory at a place, whole, or no octet of it does."),
    ("Kept", "Kept", "Octets of lent memory are moved to its front."),
    ("Spells", "Spells", "A piece of text is read as octets into lent memory, as far as it goes."),
    ("Digested", "Digested", "A piece of a capture is printed into lent memory, as far as it goes."),
    ("WorkedOff", "WorkedOff", "A piece of a trace is worked off at a lent table and printed into lent memory."),
    ("Given", "Gives", "What the library's trait promises of its function, over the definition that stands at `_gives`."),
    ("Refilled", "Refilled", "What was held stands in front of what was read; what was read is the world's, and not said."),
    ("None", "", "What is printed, and a program's whole run, are the world's: nothing is said of them."),
)


def heads(file):
    """The public functions of a file: each with its type or trait, if any, and what stands before its body."""
    own_type, in_trait, gives, head, name = None, False, "", [], None
    text = file.read_text()
    for line in text.splitlines():
        block = re.match(r"impl(?:<.*?>)? (?:[\w<>]+ for )?(\w+)|pub trait (\w+)", line)
        if block:
            own_type, in_trait, gives = block[1] or block[2], bool(block[2]), ""
        elif line == "}":
            own_type, in_trait, gives = None, False, ""
        ghost = re.match(r"    ghost \w+_gives = \{ (\w+) \};", line)
        if ghost and re.search(rf"^pub (?:enum|struct) {own_type}\b", text, re.MULTILINE):
            gives = ghost[1]
        start = re.match(r"\s*pub (?:extern \"C\" )?fn (\w+)", line)
        if in_trait or gives:
            start = start or re.match(r"    fn (\w+)", line)
        if start:
            name, head = f"{own_type}::{start[1]}" if own_type else start[1], []
        if name:
            head.append(line)
            if line.strip() == "{" or line.endswith(";") or line.rstrip().endswith("{") and "ensures" not in line:
                yield name, " ".join(head) + (f" ensures {{ Gives {gives} }} " if gives else "")
                name = None


def form_of(head):
    """The form of a contract. Equations, and what follows from an equation, are of the first."""
    promise = re.search(r"ensures (?:\w+ )?\{ (.*?) \}", head)
    if not promise:
        return "None"
    first = promise[1].lstrip("(").split()[0]
    for form, word, _ in FORMS:
        if word and first == word:
            return form
    if first == "Some":  # of what is always there: `Some result` is a definition's value
        first = promise[1].split()[1]
    if first.split(".")[0] == "result" or first.endswith(".new"):
        return "Value"
    raise SystemExit(f"a contract of no form: {promise[1]}")


def main():
    found = {form: {} for form, _, _ in FORMS}
    for crate in sorted((ROOT / "crates").iterdir()):
        if (crate / "src" / "main.rt").exists():
            continue
        for file in sorted((crate / "src").rglob("*.rt")):
            for name, head in heads(file):
                if "requires" in head:
                    raise SystemExit(f"{crate.name}: {name} has a requires")
                found[form_of(head)].setdefault(crate.name, []).append(name)
    lines = [INTRODUCTION]
    for form, _, meaning in FORMS:
        count = sum(len(names) for names in found[form].values())
        lines += [f"## {form}: {count}", "", meaning, ""]
        for crate, names in found[form].items():
            text = f"- `{crate}`: " + ", ".join(names)
            lines.append(textwrap.fill(text, WIDTH, subsequent_indent="  ", break_long_words=False))
        lines.append("")
    PAGE.parent.mkdir(exist_ok=True)
    PAGE.write_text("\n".join(lines).rstrip("\n") + "\n")
    print(f"docs/made/CONTRACTS.md: {len(lines)} lines")


if __name__ == "__main__":
    main()
