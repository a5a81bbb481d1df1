#!/usr/bin/env python3
"""Brings this repository's own names to the spelling of the installed Rattle.

usage: tools/spell.py           run once, at the top, right behind port.py
       tools/spell.py --list    only prints which names change, and which fall together

Definitions, lemmas, constructors and fields of crates/*/specs and crates/*/proofs become snake case: a word of
several parts, written with capitals inside (armOf) or with dashes (arm-of), is joined by underscores (arm_of). Types and facts
(a capital first), and what comes from a library, stay. Functions of src/, file names, strings and numbers are not touched: in a
.rt file only `ghost use` items and the clauses are read.
"""

import os
import re
import sys

ROOT = os.path.join(os.path.dirname(os.path.abspath(__file__)), "..")
CRATES = os.path.join(ROOT, "crates")
NAME = re.compile(r"[^\s(){}\[\],;.\"]+")
IMPORT = re.compile(r"^\s*(?:pub )?(?:ghost )?use ([^\s{]+?)(?:\.\{([^}]*)\})?(?: as (\S+?))?;?$")
# Lemmas that would fall together with the function that they speak of, or with a definition that they stand beside.
LEMMAS = frozenset(
    """
    acts-at after-receive after-send block-rows came-forward chain-at first-heads follow-at has-head head-good
    is-alone is-arm is-head is-nobody is-receive is-send is-several is_digit is_found is_loop is_number is_state
    leads-on loop-row message-in name-length next-arm of-arm of-back only-if only-loops put-after queue-good
    receive-arm receive-found receive-judged receiver-in receives-of reserved-number roles-in room-enough row-good
    row-holds same-sort send-arm send-found send-judged shown-before sizes-good stands_at state-good step-out
    tables-good to-arm to-other tree-of well-formed
    """.split()
)
# Further names that would fall together with another one of their crate, and types that are spelled like lemmas.
APART = {
    "accepted-text": "text_accepted",
    "too_long": "text_too_long",
    "Joined-arms": "JoinedArms",
    "Joined-parts": "JoinedParts",
}


def snake(name, dotted=False, crate=""):
    """The name in snake case. One that begins with a capital is a type or a fact, and stays."""
    if not dotted and name in APART and (name != "too_long" or crate == "scribble"):
        return APART[name]
    if not name[0].isalpha() or name[0].isupper():
        return name
    body = re.sub(r"(?<=[a-z0-9])([A-Z])", lambda m: "_" + m.group(1).lower(), name)
    body = re.sub(r"(?<=[\w'])-(?=[\w'])", "_", body)
    return body + "_lem" if not dotted and name in LEMMAS else body


def own(path):
    return path.startswith("Rattle.") and os.path.isdir(os.path.join(CRATES, path.split(".")[1]))


def imports(text):
    """The names, and the aliases of modules, that this file takes from a library."""
    names, aliases = set(), set()
    for line in re.sub(r"\{[^}]*\}", lambda m: m.group(0).replace("\n", " "), text).split("\n"):
        m = IMPORT.match(line)
        if not m:
            continue
        path, listed, alias = m.groups()
        if own(path) and ".Tie" not in path and ".Statement" not in path and ".declared" not in path:
            continue
        if listed:
            for x in listed.split(","):
                x = x.strip()
                names.add(x.split(" as ")[-1].strip())
                names.add(x.split(" as ")[0].strip())
        if alias:
            aliases.add(alias)
    return names, aliases


def generated(name):
    return name.startswith(("Need-", "After-", "Then", "Else"))


def turn(text, names, aliases, crate):
    """The text with its own names turned; what stands in a string stays."""
    out, last, before = [], 0, ""
    for m in NAME.finditer(text):
        word = m.group(0)
        out.append(text[last:m.start()])
        dotted = m.start() > 0 and text[m.start() - 1] == "."
        foreign = dotted and before in aliases
        if word in names or foreign or generated(word):
            out.append(word)
        else:
            out.append(snake(word, dotted, crate))
        last, before = m.end(), word
    out.append(text[last:])
    return "".join(out)


def split_comment(line):
    """A line of antt before and after its comment."""
    m = re.search(r"(^|\s)-- ", line + " ")
    return (line, "") if not m else (line[: m.start()], line[m.start():])


def turn_quoted(text, names, aliases, crate):
    """A comment: only what stands in backquotes is a name."""
    return re.sub(r"`[^`]*`", lambda m: turn(m.group(0).strip("`"), names, aliases, crate).join("``"), text)


def antt(text, crate):
    names, aliases = imports(text)
    out = []
    for line in text.split("\n"):
        m = IMPORT.match(line)
        if m and not own(m.group(1)):
            out.append(line)
            continue
        if m and ("Tie" in m.group(1).split(".") or "Statement" in m.group(1).split(".") or "declared" in m.group(1).split(".")):
            out.append(line)
            continue
        if m:
            path, listed, alias = m.groups()
            head = line[: line.index(path) + len(path)]
            out.append(head + turn(line[len(head):], set(), set(), crate))
            continue
        code, comment = split_comment(line)
        out.append(turn(code, names, aliases, crate) + turn_quoted(comment, names, aliases, crate))
    return "\n".join(out)


CLAUSE = re.compile(r"\b(requires|ensures|ghost)\b[^{}\n;]*\{")


def rt(text, crate):
    names, aliases = imports(text)
    lines = text.split("\n")
    for i, line in enumerate(lines):
        m = IMPORT.match(line)
        if m and line.lstrip().startswith("ghost use") and own(m.group(1)) and ".declared" not in m.group(1):
            head = line[: line.index(m.group(1)) + len(m.group(1))]
            lines[i] = head + turn(line[len(head):], set(), set(), crate)
    text = "\n".join(lines)
    out, at = [], 0
    for m in CLAUSE.finditer(text):
        if m.start() < at or text[text.rfind("\n", 0, m.start()) + 1:m.start()].lstrip().startswith("//"):
            continue
        depth, end = 1, m.end()
        while depth and end < len(text):
            depth += {"{": 1, "}": -1}.get(text[end], 0)
            end += 1
        out.append(text[at:m.end()])
        out.append(turn(text[m.end():end - 1], names, aliases, crate))
        at = end - 1
    out.append(text[at:])
    lines = "".join(out).split("\n")
    for i, line in enumerate(lines):
        if line.lstrip().startswith("//"):
            lines[i] = re.sub(r"`([a-z][a-z0-9]*[A-Z]\w*|\w+-[\w-]+)`", lambda m: "`" + snake(m.group(1), False, crate) + "`", line)
    return "\n".join(lines)


def files():
    for folder, dirs, names in os.walk(CRATES):
        dirs[:] = sorted(d for d in dirs if d != "out")
        for name in sorted(names):
            if name.endswith((".antt", ".rt")):
                yield os.path.join(folder, name)


def main():
    listing = "--list" in sys.argv
    changed = {}
    for path in files():
        with open(path, encoding="utf-8") as f:
            text = f.read()
        crate = os.path.relpath(path, CRATES).split(os.sep)[0]
        new = antt(text, crate) if path.endswith(".antt") else rt(text, crate)
        if listing:
            a, b = NAME.findall(text), NAME.findall(new)
            for x, y in zip(a, b):
                changed.setdefault(y, {}).setdefault(x, set()).add(os.path.relpath(path, CRATES))
        elif new != text:
            with open(path, "w", encoding="utf-8") as f:
                f.write(new)
    if listing:
        for y in sorted(changed):
            xs = changed[y]
            if list(xs) != [y]:
                print(y, "<-", " ".join(sorted(xs)) + ("   TOGETHER" if len(xs) > 1 else ""))


main()
