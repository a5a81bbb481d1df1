#!/usr/bin/env python3
"""Places of the design pass in crates/*/src: `tools/places.py [COMMIT] [--list]`.

Without a commit the files of the checkout are read. One line for each kind of place with its count; `--list` prints each place too.
"""
import collections
import re
import subprocess
import sys

arguments = [a for a in sys.argv[1:] if not a.startswith("--")]
listed = "--list" in sys.argv


def run(*command):
    return subprocess.run(command, capture_output=True, text=True, check=True).stdout


def sources():
    if arguments:
        names = run("git", "ls-tree", "-r", "--name-only", arguments[0], "crates").split()
        return {n: run("git", "show", f"{arguments[0]}:{n}") for n in names if re.search(r"/src/.*\.rt$", n)}
    names = run("git", "ls-files", "crates").split()
    return {n: open(n).read() for n in names if re.search(r"/src/.*\.rt$", n)}


files = sources()

# What one line shows. A line of comment is no place.
LINES = [
    ("1a enum of the shape of Option or Result", r"^\s*(pub )?enum (Found|Count|Turn)\b"),
    ("1b flag or number with a value beside it, in a struct", r"^\s*(pub )?(ok|whole|begun|faulty|number|case|rule|sort|found|kind): (bool|u8|u16),"),
    ("1c constant that stands for a kind, a rule or a refusal", r"^\s*(pub )?const [A-Z_]+: u(8|16) = ([0-9]+|Turn::.*|Found::.*|Table::LABELS as u16);"),
    ("1d match arm on a number", r"^\s*[0-9]+( \| [0-9]+)* => "),
    ("1e compared with a constant for acceptance", r"(==|!=) (Verdict|Answer|Turn)::ACCEPTED"),
    ("3 while or loop", r"^\s*(('[a-z]+: )|(break )|(let .* = ))*(while|loop)\b"),
    ("4a conversion by `as`", r"\bas (u8|u16|u32|u64|usize)\b"),
    ("4b call of a conversion of the repository's own", r"\b(wide|narrow|size)\((?!numbers|\))"),
    ("4c minimum, maximum or choice of the repository's own", r"\b(pick|pick_word|lower|larger|least|outside|past)\("),
    ("4d type without Debug and equality", r"^\s*#\[derive\((Clone, Copy|Drop)\)\]"),
    ("6 length or count beside what it counts", r"^\s*(pub )?(count|length|passed|shown|words): usize,"),
]
SIGNATURE = re.compile(r"\bfn (\w+)(?:<[^>]*>)?\(([^)]*)\)", re.S)


def lines_of(pattern):
    found = []
    for name, text in sorted(files.items()):
        for at, line in enumerate(text.split("\n"), 1):
            if not line.strip().startswith("//") and re.search(pattern, line):
                found.append(f"{name}:{at}: {line.strip()}")
    return found


def signatures():
    for name, text in sorted(files.items()):
        for match in SIGNATURE.finditer(text):
            parameters = [p.strip() for p in match.group(2).split(",") if ":" in p]
            yield name, text[: match.start()].count("\n") + 1, match.group(1), parameters


def long_lists():
    return [f"{n}:{at}: {f} takes {len(p)}" for n, at, f, p in signatures() if len(p) > 5]


def travelling():
    """Three parameters of the same names and types in three or more functions of one file."""
    seen = collections.defaultdict(list)
    for name, at, function, parameters in signatures():
        for i in range(len(parameters) - 2):
            seen[(name, tuple(parameters[i:i + 3]))].append(f"{function}:{at}")
    return [f"{n}: {', '.join(p)}: {' '.join(fs)}" for (n, p), fs in sorted(seen.items()) if len(fs) > 2]


def facts():
    """A conjunct of a `requires` that stands in three or more contracts of one crate."""
    seen = collections.defaultdict(list)
    for name, text in sorted(files.items()):
        crate = name.split("/")[1]
        for at, line in enumerate(text.split("\n"), 1):
            match = re.match(r"\s*requires(?: \w+)? \{ (.*) \}$", line)
            if match:
                for fact in re.split(r" × ", match.group(1)):
                    seen[(crate, fact.strip("() "))].append(f"{name}:{at}")
    return [f"{c}: {f}: {' '.join(ps)}" for (c, f), ps in sorted(seen.items()) if len(ps) > 2]


def twins():
    """Functions of one file or crate whose bodies are the same but for names of types, sizes and functions."""
    seen = collections.defaultdict(list)
    for name, text in sorted(files.items()):
        for match in re.finditer(r"^( *)(?:pub )?(?:extern \"C\" )?fn (\w+)", text, re.M):
            end = re.compile(r"^" + match.group(1) + r"\}", re.M).search(text, match.end())
            block = text[match.end(): end.start() if end else len(text)]
            body = block[block.index("\n" + match.group(1) + "{") :] if "\n" + match.group(1) + "{" in block else block
            shape = re.sub(r"[A-Za-z_0-9]+", "x", body)
            shape = re.sub(r"\s+", "", shape)
            if len(shape) > 40:
                seen[(name.split("/")[1], shape)].append(f"{name}: {match.group(2)}")
    return ["; ".join(fs) for fs in seen.values() if len(fs) > 1]


def report(title, found):
    print(f"{title}: {len(found)}")
    if listed:
        for place in found:
            print(f"    {place}")


for title, pattern in LINES[:5]:
    report(title, lines_of(pattern))
report("2 functions of one crate with bodies of one shape", twins())
for title, pattern in LINES[5:10]:
    report(title, lines_of(pattern))
report("5a function of more than five parameters", long_lists())
report("5b three parameters that travel together", travelling())
report("5c fact in three or more contracts", facts())
report("6a length or count beside what it counts", lines_of(LINES[10][1]))
report("6b parallel arrays in one struct", [f"{n}: {m.group(0).split()[-2] if False else m.group(1)}" for n, t in sorted(files.items()) for m in re.finditer(r"struct (\w+) \{((?:(?!\}).)*\[[^;\]]+; [^\]]+\],(?:(?!\}).)*\[[^;\]]+; [^\]]+\],(?:(?!\}).)*)\}", t, re.S)])
report("7 switch on which step to run", [f"{n}: {m.group(0)}" for n, t in sorted(files.items()) for m in re.finditer(r"match (rule|case|letter) \{", t)])
