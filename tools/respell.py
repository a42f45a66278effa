#!/usr/bin/env python3
"""Spells the repository's own definitions and lemmas as today's Rattle does: words in snake case, types in camel case.

Run once at the top of the repository, after /opt/rattle/port/port.py. It renames what is declared in specs/ and in the
lemma files of proofs/ (not the proofs of single functions, whose names Rattle makes), wherever it is named in crates/.
--list prints the names, old and new, and those that fall together, and changes nothing."""
import pathlib
import re
import sys

WORD = r"[A-Za-z][\w'?!-]*"
MARKS = r"(?:(?:abbrev|unfoldable|pub|data|record|opaque|foldable) )*"
TYPE = re.compile(rf"^{MARKS}(?:data|record) ({WORD})(?= |$)")
MARKED = re.compile(rf"^\s*(?:(?:abbrev|unfoldable|pub) )+(?!(?:data|record|use|mod|module) )({WORD})(?= |$)")
HEAD = re.compile(rf"^\s*{MARKS}({WORD}(?: {WORD})*) :")
# Both spellings of these stood for two things: the one that reads the bytes of a sheet says so, and a lemma that it is one.
APART = {
    "base-of": "base_of_lem",
    "is-array": "is_array_lem",
    "is-generic": "is_generic_lem",
    "recordAt": "record_bytes",
    "slot-of": "slot_of_record",
    "type-in": "type_in_lem",
    "type-of": "type_of_lem",
    "boundIn": "bound_in_sheet",
    "elementIn": "element_in_sheet",
    "slotIn": "slot_in_sheet",
    "boundOf": "bound_of_procedure",
    "elementOf": "element_field",
    "rightsOf": "rights_field",
    "variablesAt": "variables_field",
    "slotAs": "slot_as_read",
    "Value-of": "ReturnedValue",
}
NOT_NAMES = {"use", "module", "mod", "let", "in", "where", "unfolding", "elim", "ruleset", "syntax", "open"}
PER_FUNCTION = {"Proof.antt", "Answers.antt", "Invariants.antt"}


def declared(path, text):
    """The names that a file declares: at the top, constructors and fields."""
    names = set()
    for line in text.split("\n"):
        kind = TYPE.match(line)
        marked = MARKED.match(line)
        head = HEAD.match(line)
        if kind or marked:
            names.add((kind or marked).group(1))
        elif head and not NOT_NAMES & set(head.group(1).split()):
            names.update(head.group(1).split())
    return names


def respelled(name):
    """Camel case for a type, snake case for a word."""
    if name in APART:
        return APART[name]
    if name[0].isupper():
        head, *rest = name.split("-")
        return head + "".join(part[:1].upper() + part[1:] for part in rest)
    snake = re.sub(r"(?<=[a-z0-9])([A-Z])", lambda m: "_" + m.group(1).lower(), name)
    return snake.replace("-", "_")


def respelled_line(pattern, renamed, prose, path, line):
    """A line with its names respelled; what stands in a comment as prose stays."""
    note = re.search("--|//", line) if path.suffix != ".edit" else None if re.match("(file|old|new): ", line) else re.match("", line)
    if not note:
        return pattern.sub(lambda m: renamed[m.group(1)], line)
    code, comment = line[: note.start()], line[note.start() :]
    comment = prose.sub("well\0formed", comment)
    return pattern.sub(lambda m: renamed[m.group(1)], code) + pattern.sub(lambda m: renamed[m.group(1)], comment).replace("\0", "-")


def main():
    root = pathlib.Path("crates")
    texts = {p: p.read_text() for p in sorted(root.rglob("*")) if p.suffix in (".antt", ".rt", ".edit") and p.is_file()}
    names = set()
    for path, text in texts.items():
        if path.suffix == ".antt" and not (path.name in PER_FUNCTION and "proofs" in path.parts):
            names |= declared(path, text)
    renamed = {n: respelled(n) for n in names if respelled(n) != n}
    together = {}
    for old in names:
        together.setdefault(respelled(old), set()).add(old)
    if "--list" in sys.argv:
        for old, new in sorted(renamed.items()):
            print(f"{old} {new}")
        for new, olds in sorted(together.items()):
            if len(olds) > 1:
                print("together:", new, *sorted(olds))
        return
    pattern = re.compile(r"(?<![\w'?!-])(" + "|".join(map(re.escape, sorted(renamed, key=len, reverse=True))) + r")(?![\w'?!-])")
    # "well-formed" is a word of the papers too: in a comment it is a name only between backticks.
    prose = re.compile(r"(?<!`)\bwell-formed\b(?!`)")
    for path, text in texts.items():
        new = "\n".join(respelled_line(pattern, renamed, prose, path, line) for line in text.split("\n"))
        if new != text:
            path.write_text(new)


main()
