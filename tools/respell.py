#!/usr/bin/env python3
"""Brings the names of this repository's own definitions and lemmas to today's spelling: types in upper camel case, everything else in snake case.

usage: python3 tools/respell.py [FOLDER]     once, right after /opt/rattle/port/port.py, on a tree that has crates/

A name is one of ours if specs/ or proofs/*.antt declare it: at the margin, in a module or a `where`, as a field or as a constructor.
Functions of src/, names of goals and steps, names of the library, strings, and words of comments (but for names between ` `) keep their spelling.
It says which new names fall together with one that is there already, and then writes nothing.
"""

import os
import re
import sys

NAME = r"[A-Za-z_][\w'≢≤≡]*(?:-[\w'≢≤≡]+)+"
WHOLE = re.compile(r"(?<![\w'≢≤≡-])" + NAME + r"(?![\w'≢≤≡-])")
DECLARED = re.compile(r"^\s*(?:abbrev |unfoldable |opaque |pub )*(" + NAME + r") *:(?!=)", re.M)
TYPES = re.compile(r"^\s*(?:pub )?(?:record|data) (" + NAME + r")", re.M)
LOCAL = re.compile(r"\blet (" + NAME + r") *[:=]")
ANSWERS = ("Answers.antt", "Invariants.antt", "Choices.antt", "Proof.antt")


def respelt(name):
    if name[0].isupper():
        return "".join(word[:1].upper() + word[1:] for word in name.split("-"))
    return name.replace("-", "_")


def files(root, ending):
    for folder, dirs, names in os.walk(os.path.join(root, "crates")):
        dirs[:] = sorted(d for d in dirs if d != "out")
        for name in sorted(names):
            if name.endswith(ending):
                yield os.path.join(folder, name)


def read(path):
    with open(path, encoding="utf-8") as f:
        return f.read()


def comment_at(line, mark):
    """Where the comment of a line begins, or its length; marks in strings do not count."""
    inside = False
    for i, c in enumerate(line):
        if c == '"' and (i == 0 or line[i - 1] != "\\"):
            inside = not inside
        if not inside and line.startswith(mark, i):
            return i
    return len(line)


def own_names(root):
    names = set()
    for path in files(root, ".antt"):
        if os.path.basename(path) in ANSWERS:
            continue
        text = "\n".join(line[: comment_at(line, "--")] for line in read(path).split("\n"))
        names |= set(DECLARED.findall(text)) | set(TYPES.findall(text))
    return names


def local_names(text):
    """Names that a `let` in lemmas gives."""
    return set(LOCAL.findall(text))


def outside_strings(text, change):
    return "".join(part if i % 2 else change(part) for i, part in enumerate(re.split(r'("(?:[^"\\]|\\.)*")', text)))


def turned(text, names, mark, code_too=True):
    lines = []
    for line in text.split("\n"):
        at = comment_at(line, mark)
        code, comment = line[:at], line[at:]
        swap = lambda m: respelt(m[0]) if m[0] in names else m[0]
        if code_too:
            code = outside_strings(code, lambda part: WHOLE.sub(swap, part))
        comment = re.sub(r"`[^`]*`", lambda m: WHOLE.sub(swap, m[0]), comment)
        lines.append(code + comment)
    return "\n".join(lines)


def imported(text):
    found = set()
    for m in re.finditer(r"^use [^\n{]*\{([^}]*)\}", text, re.M):
        found |= {word.strip() for word in m[1].split(",")}
    return found


def main(argv):
    root = argv[0] if argv else "."
    names = own_names(root)
    clashes = []
    known = set()
    for path in files(root, ".antt"):
        known |= set(re.findall(r"[A-Za-z_][\w'≢≤≡-]*", read(path)))
    for name in sorted(names):
        if respelt(name) in known and respelt(name) not in FUNCTIONS:
            clashes.append(f"{name}: {respelt(name)} is there already")
    if clashes:
        print("\n".join(clashes))
        return 1
    count = 0
    for path in files(root, ".antt"):
        old = read(path)
        here = names
        if os.path.basename(path) in ANSWERS:
            # goals and steps have names of the same look: only what is imported, and fields, which no step has
            here = {n for n in names if n in imported(old)} | (FIELDS & names)
        else:
            here = names | local_names(old)
        new = turned(old, here, "--")
        if new != old:
            count += 1
            with open(path, "w", encoding="utf-8") as f:
                f.write(new)
    for path in files(root, ".rt"):
        old = read(path)
        new = turned(old, names, "//")
        if new != old:
            count += 1
            with open(path, "w", encoding="utf-8") as f:
                f.write(new)
    print(f"{len(names)} names, {count} files")
    return 0


# Functions of src/, as paths of proofs name them, that now have the name of the definition which their clauses cite. The library's crates do so too.
FUNCTIONS = set("defun_parameter entries_right entry_right input_among is_input mask_right wrong_fact".split())

# Fields of our records that answers name without an import.
FIELDS = set(
    "bind-shows unbind-undoes few-terms first-wrong no-terms too-few-symbols closure-captured closure-made closure-owner "
    "dynamic-binder dynamic-body dynamic-first dynamic-free dynamic-let dynamic-made".split()
)

if __name__ == "__main__":
    raise SystemExit(main(sys.argv[1:]))
