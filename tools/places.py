#!/usr/bin/env python3
"""Lists the places of src/ that docs/DESIGN-PASS.md counts, by point, with file and line.

    python3 tools/places.py [FOLDER]        all lists, and a count for each
    python3 tools/places.py --counts [FOLDER]
"""
import collections
import pathlib
import re
import sys

ARGUMENTS = [a for a in sys.argv[1:] if not a.startswith("--")]
COUNTS_ONLY = "--counts" in sys.argv
TOP = pathlib.Path(ARGUMENTS[0] if ARGUMENTS else ".")

LINES = [
    ("1a own enums", r"^\s*(pub )?enum \w+"),
    ("1b a match that hands an Err or a None on", r"(Err\(\w+\)|None) => return|Ok\((\w+)\) => \2,|Some\((\w+)\) => \3,"),
    ("1c a number for a kind", r"^\s*(0x[0-9A-F]{2} =>|const \w+: u8 = 0x|pub const \w+: u8 = 0x)"),
    ("1d a field that is a flag", r"^\s*(pub )?\w+: bool,"),
    ("3 an index counted by hand, or a loop with a condition", r"for \w+ in 0\.\.|\bwhile "),
    ("4a a comparison written as a match", r"=> (true|false),"),
    ("4b bytes and numbers turned by hand", r"(/|%|\*) (256|65536|16777216)\b"),
    ("4c conversion as a method", r"fn (of|from_\w+|to_\w+|into_\w+)\("),
    ("4d printing", r"fmt::Display for|fn \w*(name|words|text)\w*\(.*-> &'static str"),
    ("4e no Debug or PartialEq among the derives", r"#\[derive\((Clone, Copy|Drop)\)\]"),
    ("6a an array in a struct", r"^\s*(pub )?\w+: \[.*; .*\],"),
    ("6b a length beside it", r"^\s*(pub )?(len|count|printed|line_size): usize,"),
    ("7 functions in tables, closures, dyn", r"\bdyn |\bfn\(|\bimpl Fn|\bFn(Mut|Once)?\("),
]


def sources():
    for path in sorted(TOP.glob("crates/*/src/**/*.rt")):
        yield path.relative_to(TOP), path.read_text()


def show(title, found):
    print(f"{title}: {len(found)}")
    if not COUNTS_ONLY:
        for line in found:
            print("   ", line)


def by_lines():
    texts = list(sources())
    for title, pattern in LINES:
        found = []
        for path, text in texts:
            if "/table/" in str(path):
                continue
            for number, line in enumerate(text.splitlines(), 1):
                if re.search(pattern, line) and not line.lstrip().startswith("//"):
                    found.append(f"{path}:{number}: {line.strip()}")
        show(title, found)


def twins():
    places = collections.defaultdict(list)
    for path, text in sources():
        for name in re.findall(r"^\s*(?:pub(?:\(\w+\))? )?fn (\w+)", text, re.M):
            places[name].append(str(path))
    of_traits = {"fmt", "from", "begin", "give", "take", "end", "is_open", "put", "page_count", "frame_of", "is_free", "len", "byte", "main", "new", "show", "step"}
    found = [f"{name}: {', '.join(at)}" for name, at in sorted(places.items()) if len(at) > 1 and name not in of_traits]
    show("2a names of functions that stand twice", found)


def repeated_clauses():
    counts = collections.Counter()
    where = collections.defaultdict(set)
    for path, text in sources():
        for fact in re.findall(r"^\s*(?:requires|ensures)[^{\n]*\{ (.*) \}\s*$", text, re.M):
            counts[fact] += 1
            where[fact].add(str(path))
    found = [f"{n} x {fact[:120]} ({', '.join(sorted(where[fact]))})" for fact, n in counts.most_common() if n >= 3]
    show("5a a clause that stands three times", found)


def repeated_parameters():
    groups = collections.defaultdict(set)
    for path, text in sources():
        for name, parameters in re.findall(r"fn (\w+)(?:<[^(]*>)?\(([^)]*)\)", text):
            names = re.findall(r"(\w+): (?!HostRuntime|&HostRuntime)", parameters)
            for i in range(len(names)):
                for j in range(i + 1, len(names)):
                    for k in range(j + 1, len(names)):
                        groups[(str(path), names[i], names[j], names[k])].add(name)
    found = [f"{path}: {a}, {b}, {c} in {', '.join(sorted(fs))}" for (path, a, b, c), fs in sorted(groups.items()) if len(fs) >= 3]
    show("5b three parameters that travel together through three functions", found)


by_lines()
twins()
repeated_clauses()
repeated_parameters()
answers = list(TOP.glob("crates/*/proofs/**/Answers.antt"))
lines = sum(len(p.read_text().splitlines()) for p in TOP.glob("crates/*/proofs/**/*.antt"))
print(f"8 files of answers: {len(answers)}; lines of proofs: {lines}")
