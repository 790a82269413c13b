#!/usr/bin/env python3
"""Spells the definitions and lemmas of this repository as today's Rattle spells its own: functions, lemmas, fields and constructors
in snake case, types in camel case; a dash stays in a lemma's name where it joins the names of two functions.

usage: respell.py table      reads crates/ and writes the table of names, tools/respell.tsv
       respell.py            applies the table to crates/, at the top of a repository on which port.py was run

Names that Rattle makes for goals and for steps of a proof are left alone, as are strings, comments (but for names in backticks) and
the code of src/. `table` says which names would fall together: APART tells those from one another.
"""

import collections
import os
import re
import sys

HERE = os.path.dirname(os.path.realpath(__file__))
TABLE = os.path.join(HERE, "respell.tsv")
WORD = re.compile(r"""[^\s(){}\[\],;.:"`@]+""")
DEFINES = re.compile(r"^\s*(?:(?:abbrev|unfoldable|pub) )*([^\s(){}\[\],;.:]+)(?: \{[^{}]*\})* : ")
HEAD = re.compile(r"^\s*(?:(?:abbrev|unfoldable|pub) )*(?:record|data) ([^\s(){}\[\],;.:]+)")
ALIAS = re.compile(r" as ([a-z]+-[\w'-]+)")
# The first line of a text and a line of code as a script's line would both be line_of; two facts would be called as two steps.
APART = {"line-of": "first_line", "Same-name": "IsSameName", "Same-size": "IsSameSize"}
# Names that have no dash, or had none left.
APART |= {"refusalNumber": "refusal_number", "refusalOf": "refusal_from_number", "anyAnswer": "any_answer", "Bytes_of": "BytesOf"}
APART |= {"addedByte": "added_byte", "addedTimes": "added_times", "escapedOf": "escaped_of", "commonOf": "common_of"}
APART |= {"passedOver": "passed_over", "choicesOf": "choices_of", "afterByte": "after_byte"}
STD = {"length", "take", "drop", "append", "get_or", "getD", "set", "map", "sum", "replicate", "reverse", "filter", "set_bits"}


def files(root, *ends):
    for folder, dirs, names in os.walk(os.path.join(root, "crates")):
        dirs[:] = sorted(d for d in dirs if d != "out")
        for name in sorted(names):
            if name.endswith(ends):
                yield os.path.join(folder, name)


def of_goals(path):
    return os.path.basename(path) in ("Answers.antt", "Invariants.antt", "Proof.antt")


def read(path):
    with open(path, encoding="utf-8") as f:
        return f.read()


def entries(text):
    """The definitions of an antt file: each name, its signature's lines joined, and whether it is a record or data."""
    lines = text.split("\n")
    for k, line in enumerate(lines):
        if line.lstrip().startswith(("--", "let ", "| ", "use ", "pub use ")):
            continue
        head = HEAD.match(line)
        if head:
            yield head[1], line, True
            continue
        found = DEFINES.match(line)
        if found and not re.match(r"^\s*(in|elim|omega|grind|rw)\b", line):
            sign, deep = line, len(line) - len(line.lstrip())
            for more in lines[k + 1 :]:
                if not more.strip() or len(more) - len(more.lstrip()) <= deep:
                    break
                sign += " " + more.strip()
            yield found[1], sign, False


def snake(name):
    name = re.sub(r"(?<![A-Za-z])getD(?![A-Za-z])", "get_or", name)
    return name.replace("-", "_")


def camel(name):
    parts = name.split("-")
    return parts[0] + "".join(p[:1].upper() + p[1:] for p in parts[1:])


def table(root):
    lemmas, defs, types, made, aliases = set(), set(), set(), set(), set()
    for path in files(root, ".antt"):
        text = read(path)
        for name, sign, is_head in entries(text):
            if of_goals(path) and re.search(r": goal\.", sign):
                made.add(name)
            elif is_head or re.search(r"(?:: |→ )Type(?: \d)?\s*(?:where)?$", sign.strip()):
                types.add(name)
            elif "/proofs/" in path and not re.search(r"^\s*(?:unfoldable|abbrev)", sign):
                lemmas.add(name)
            else:
                defs.add(name)
    for path in files(root, ".rt", ".antt"):
        aliases |= set(ALIAS.findall(read(path)))
    every = lemmas | defs | types | aliases
    known = STD | defs
    new = {}
    for name in sorted(every - made):
        if "-" not in name:
            continue
        if name in types:
            new[name] = camel(name)
        elif name in lemmas and name not in defs:
            parts = name.split("-")
            sides = [("-".join(parts[:k]), "-".join(parts[k:])) for k in range(1, len(parts))]
            cuts = [k + 1 for k, (a, b) in enumerate(sides) if a in STD and b in known or a in defs and b in STD]
            new[name] = snake("-".join(parts[: cuts[0]])) + "-" + snake("-".join(parts[cuts[0] :])) if cuts else snake(name)
        else:
            new[name] = snake(name)
    for name, other in APART.items():
        new[name] = other
    to = collections.defaultdict(set)
    for name in every:
        to[new.get(name, name)].add(name)
    for name, froms in sorted(to.items()):
        if len(froms) > 1:
            print(f"fall together: {name}: {', '.join(sorted(froms))}")
    with open(TABLE, "w", encoding="utf-8") as f:
        for name in sorted(new):
            if name != new[name]:
                f.write(f"{name}\t{new[name]}\n")
    print(f"{len(new)} names; {len(made)} made names left alone")


def parts_of_rt(text):
    """A source file cut into parts, each with whether it may be respelled: clauses and ghost items, without strings and comments."""
    cut = re.compile(r'//[^\n]*|"(?:\\.|[^"\\])*"|\'(?:\\.|[^\'\\])\'', re.S)
    at = 0
    for m in cut.finditer(text):
        yield text[at : m.start()], True
        yield m[0], False
        at = m.end()
    yield text[at:], True


def parts_of_antt(text):
    for line in text.splitlines(keepends=True):
        if line.lstrip().startswith("--"):
            yield line, False
            continue
        for part in re.split(r'("[^"\n]*")', line):
            yield part, not part.startswith('"')


def apply(root):
    new = dict(line.rstrip("\n").split("\t") for line in open(TABLE, encoding="utf-8"))
    code, changed = set(), 0
    for path in files(root, ".rt"):
        code |= set(re.findall(r"\b(?:fn|let|mut|struct|enum|mod|const) (\w+)", read(path)))
    for path in files(root, ".rt", ".antt", ".edit"):
        text = read(path)
        goals = of_goals(path)
        made = {n for n, s, _ in entries(text) if re.search(r": goal\.", s)} if path.endswith(".antt") else set()

        def one(m):
            name = m[0]
            if name not in new or name in made:
                return name
            before = m.string[: m.start()]
            if goals and before.endswith("goal."):
                return name
            if goals and re.search(r"(?<![\w'-])[cwl]\.$", before) and new[name] not in code:
                return name
            return new[name]

        if path.endswith(".edit"):
            out = "".join(WORD.sub(one, l) if l.startswith(("old:", "new:")) else l for l in text.splitlines(keepends=True))
        else:
            parts = parts_of_rt(text) if path.endswith(".rt") else parts_of_antt(text)
            out = "".join(
                WORD.sub(one, p) if ok else re.sub(r"`([^`\n]+)`", lambda b: "`" + WORD.sub(one, b[1]) + "`", p) for p, ok in parts
            )
        if out != text:
            changed += 1
            with open(path, "w", encoding="utf-8") as f:
                f.write(out)
    print(f"{changed} files respelled")


if __name__ == "__main__":
    (table if sys.argv[1:] == ["table"] else apply)(os.getcwd())
