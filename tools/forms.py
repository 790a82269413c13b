#!/usr/bin/env python3
"""Counts the places in src/ that today's forms could write better, one line for each: python3 tools/forms.py [TREE] [--list]

Points: 1 codes, sentinels and errors handed on by hand; 2 twins; 3 loops that count an index; 4 equality, conversion and printing by
hand; 5 parameters that travel together and facts said again; 6 buffers with a length beside; 7 tables of functions; 8 answer files.
What only reading finds stands in docs/DESIGN-PASS.md."""
import collections
import pathlib
import re
import sys

ARGS = [a for a in sys.argv[1:] if not a.startswith("--")]
TREE = pathlib.Path(ARGS[0] if ARGS else ".")
SOURCES = sorted(TREE.glob("crates/*/src/**/*.rt"))

LINES = [
    ("1a a value handed on, or given up, by hand", r"let (Some|Ok)\(.*\) = .* else \{|^\s+(None => None|Err\(\w+\) => Err\(|Some\(\w+\) => Some\(|Ok\(\w+\) => Ok\()"),
    ("1b a number for a kind, a refusal or nothing", r"\b(kind|number|refusal): u(8|64)\b|-> u8$|^(pub\(crate\) |pub )?const [A-Z_]+: u64 = \d+;"),
    ("3a an index counted in a while", r"\bwhile\b.*[<{]"),
    ("3b an index counted in a range", r"\bfor \w+ in \(?[\w.()\[\]]+ ?\.\."),
    ("4a equality, order or copies by hand", r"fn (same\w*|check_same|fields|garbled_at|untouched|front|after|put)\b.*"),
    ("4b a conversion by hand", r"fn (number|number_of|from_number|bit|named|paired|single|lent|renamed_by)\(|=> Err\(Un\w+::|if \w[\w.]* \{ 1 \} else \{ 0 \}"),
    ("4c printing by hand", r"fn (print_\w+|put_(number|word|verb|named|pair|one|rename|write|refused|told|block|entry))\(out: &mut Vec"),
    ("5a tables lent one by one", r"^\s+nodes: &(mut |'a |'a mut )?\[u64\]|\bnodes: &(mut )?\[u64\],"),
    ("5b the tables hold a tree, said again", r"requires.*SomeTree"),
    ("5c limits, older and held, one by one", r"limits: Limits, |^\s+limits: Limits,$"),
    ("5d how long a map is, said again", r"requires.*length (map|a)\.(now|old) < 2 \^ 32"),
    ("6a a length beside a buffer", r"\blen: usize,$"),
    ("6b text as bytes", r"Vec<u8>"),
    ("7 tables of functions", r"\bfn\(|\bdyn |: \[fn"),
]


def functions(text):
    """Name and body of each function that has one."""
    lines = text.split("\n")
    for at, line in enumerate(lines):
        m = re.match(r"( *)(?:pub(?:\(crate\))? )?(?:const )?fn (\w+)", line)
        if not m:
            continue
        indent, name = m.groups()
        start = at
        while lines[start] != indent + "{" and not lines[start].endswith(" {") and start - at < 40:
            if re.match(indent + r"\{.*\}$|.*;$", lines[start]):
                break
            start += 1
        else:
            end = start + 1
            while end < len(lines) and lines[end] != indent + "}":
                end += 1
            yield name, "\n".join(lines[start + 1 : end])


def skeleton(body):
    """The body with every name and number left out."""
    body = re.sub(r"//.*", "", body)
    body = re.sub(r"\b[A-Za-z_]\w*\b", "n", body)
    body = re.sub(r"\b\d+\b", "0", body)
    return re.sub(r"\s+", "", body)


def twins():
    groups = collections.defaultdict(list)
    for path in SOURCES:
        for name, body in functions(path.read_text()):
            bones = skeleton(body)
            if len(bones) >= 20:
                groups[bones].append(f"{path.relative_to(TREE)}: {name}")
    return [g for g in groups.values() if len(g) > 1]


def main():
    listing = "--list" in sys.argv
    for title, pattern in LINES:
        places = []
        for path in SOURCES:
            for at, line in enumerate(path.read_text().split("\n"), 1):
                code = line.split("//")[0]
                if re.search(pattern, code):
                    places.append(f"    {path.relative_to(TREE)}:{at}: {line.strip()}")
        print(f"{len(places):4} {title}")
        if listing:
            print("\n".join(places))
    groups = twins()
    print(f"{sum(len(g) for g in groups):4} 2 functions alike but for names and numbers, in {len(groups)} groups")
    if listing:
        for group in groups:
            print("    " + " | ".join(group))
    answers = [p for p in TREE.glob("crates/*/proofs/**/Answers.antt")]
    lines = sum(len(p.read_text().split("\n")) - 1 for p in answers)
    print(f"{len(answers):4} 8 answer files, {lines} lines")


main()
