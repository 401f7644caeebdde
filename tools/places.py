"""Lists the places that docs/DESIGN-PASS.md counts: python3 tools/places.py [FOLDER]

Each point is a set of patterns over the lines of crates/*/src. What they find is a candidate: the page says of each what was done.
"""
import collections
import glob
import itertools
import re
import sys

ROOT = sys.argv[1] if len(sys.argv) > 1 else "."

LINES = {
    1: [
        r"^\s+(pub(\(crate\))? )?\w+: bool,$",  # a flag in a struct
        r"\b\w+: bool[,)]|\(usize, bool\)",  # a flag among parameters, or beside a value
        r"const [A-Z_]+: u8 = \d+;",  # a number that names a case
        r"\b(kind|state): u(8|16)\b|fn numbered|Option<\(u16,",
        r"\{ 1 \} else \{ 0 \}",  # a number for yes and no
        r"//.*\b0 (if|for) |//.*\(0 for",  # a number that stands for none
    ],
    3: [
        r"\bwhile ",
        r"for [a-z]\w* in [^{]*\.\.",
        r"\b(count|at|length|passed) [+-]= 1;",
        r"\bend = append",
        r"\bif [ib] (<|>=|%) ",  # a place tested by hand in a loop over all
    ],
    4: [
        r"impl.* (PartialEq|Eq|PartialOrd|Ord|Clone|Copy|Debug|Display|From<.*>|TryFrom<.*>) for",
        r"fn (number|numbered|value|place|lower|digit|le_bytes|bytes_of|text_of)\b",
        r"< .*\|\| \(.* == .* && ",
        r"fn u(16|32)_bytes|fn \w+_text\(|\.number\(\), fault\.place\(\)",
        r"\d <= \w+ && \w+ <= |' <= \w+ && |>= b'A'",  # a range by two comparisons
    ],
    6: [
        r"^\s+(pub(\(crate\))? )?\w+: \[[^\[\];]+; \w+\],$",  # a fixed array in a struct
        r"&mut \[[^\[\];]+; \w+\]",
        r"-> \[u16; 16\]",
        r"^\s+(pub(\(crate\))? )?count: (u16|usize),$",
        r"\b(priorities|measures): (&\[u16\]|Vec<u16>)",
    ],
    7: [r"\bfn\(", r"\bdyn\b", r"\bFn(Mut|Once)?\("],
}

def sources():
    for path in sorted(glob.glob(f"{ROOT}/crates/*/src/**/*.rt", recursive=True)):
        yield path[len(ROOT) + 1 :], open(path).read()


def functions():
    """The text of each function, from `fn` to the brace that closes it."""
    for path, text in sources():
        for match in re.finditer(r"^( *)(?:pub(?:\(crate\))? )?(?:final )?fn (\w+)", text, re.M):
            end = re.search(rf"^{match.group(1)}\}}|^{match.group(1)}    ensures[^\n]*;\n", text[match.start() :], re.M)
            if end:
                yield f"{path}:{match.group(2)}", text[match.start() : match.start() + end.end()]


def shape(text):
    """A function without what twins differ in: comments, types of numbers, numbers, constants, and names of types."""
    text = re.sub(r"//[^\n]*|\b(ensures|requires)\b[^\n]*", "", text)
    text = re.sub(r"\bfn \w+", "fn", text)
    text = re.sub(r"\b(u8|u16|u32|u64|usize)\b", "N", text)
    text = re.sub(r"\b[A-Z]\w*\b", "T", text)
    text = re.sub(r"\b\d\w*\b", "0", text)
    return re.sub(r"\s+", " ", text)


def answers_by_flag():
    """Functions that do something to what they are lent, and answer whether they did."""
    for name, text in functions():
        head = text.split("\n    ensures")[0].split("{")[0]
        if "&mut" in head and "-> bool" in head:
            yield f"{name}: answers by a flag"


def twins():
    groups = collections.defaultdict(list)
    for name, text in functions():
        body = shape(text)
        if len(body) > 40:
            groups[body].append(name)
    return sorted(" = ".join(names) for names in groups.values() if len(names) > 1)


def repeated_clauses():
    clauses = collections.Counter()
    for name, text in functions():
        for fact in set(re.findall(r"requires (?:\w+ )?\{ (.*) \}", text)):
            clauses[fact] += 1
    return sorted(f"{count} times: {fact}" for fact, count in clauses.items() if count >= 3)


def parameters_together():
    pairs = collections.Counter()
    for name, text in functions():
        head = re.sub(r"\s+", " ", text.split("{")[0])
        found = set(re.findall(r"(\w+): ((?:&(?:'a )?)?(?:mut )?[\w\[\]; <>]+)", head))
        names = sorted(f"{n}: {t}" for n, t in found if n != "self" and n != "rt")
        for pair in itertools.combinations(names, 2):
            pairs[pair] += 1
    return sorted(f"{count} functions: {a}, {b}" for (a, b), count in pairs.items() if count >= 3)


def main():
    for point in range(1, 8):
        if point == 2:
            found = twins()
        elif point == 5:
            found = repeated_clauses() + parameters_together()
        else:
            found = [
                f"{path}:{number}: {line.strip()}"
                for path, text in sources()
                for number, line in enumerate(text.split("\n"), 1)
                if any(re.search(pattern, line) for pattern in LINES[point])
            ]
        if point == 1:
            found += answers_by_flag()
        print(f"point {point}: {len(found)}")
        for item in found:
            print("   ", item)


main()
