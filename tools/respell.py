#!/usr/bin/env python3
"""Respells the definitions and lemmas of this repository: snake case for words, a dash between two names.

usage: python3 tools/respell.py [--list]      at the top of the repository; --list only prints `old<TAB>new`

It goes over specs/, proofs/, the ghost lines of src/ and the edits under must-fail/ of every crate, and over
the names in backticks in README.md, docs/, include/ and reference/. Types, modules, functions of src/ and names
that Rattle makes keep their spelling. A second run changes nothing.
"""

import collections
import os
import re
import sys

WORD = r"[^\s(){}.;,:@\"«»\[\]\\`<>|&~]+"
TOKEN = re.compile(WORD)
DEFINED = re.compile(
    r"^(?:[ \t]*)(?:pub\s+|abbrev\s+|unfoldable\s+|private\s+|opaque\s+)*(" + WORD + r")((?:\s+" + WORD + r")*)\s*:\s"
)
DECLARED = re.compile(r"^\s*(?:pub\s+)?(record|data|module)\s+(" + WORD + ")")
# Words that are names of the library's functions, beside which a dash may stand.
NAMES = set("add sub mul div pow neg lt le eq length append take drop map set get replicate round".split())
# Names that stand beside one of the library's.
BESIDE = {"is-nan": "is_nan_lem"}
# Names that Rattle makes for the proof of a function, and rows of std.
MADE = re.compile(
    r"(?:loop|if|in|then|else|returns|match|overflow|bounds|offset|slice|array|invariant|decreases|Need|shared|mut|enum|float|nonzero|in_[a-z]+)-"
    r"|.*-(?:requires|ensures|preserved|smaller|init|test|spec|result)(?:-\d+)?$"
)


def camel(word):
    """Whether the word is a lower camel case one."""
    return bool(re.match(r"[a-z]", word)) and bool(re.search(r"[a-z0-9][A-Z]", word))


def snake(word):
    if not re.match(r"[a-z]", word):
        return word
    word = re.sub(r"(?<=[a-z0-9])([A-Z])(?=[A-Z]*[a-z0-9₀]|$)", lambda m: "_" + m.group(1).lower(), word)
    return word


def texts(root, ending):
    for folder, dirs, files in os.walk(os.path.join(root, "crates")):
        dirs[:] = sorted(d for d in dirs if d not in ("out", ".git"))
        for f in sorted(files):
            if f.endswith(ending):
                yield os.path.join(folder, f)


def read(path):
    with open(path, encoding="utf-8", newline="") as it:
        return it.read()


def own(root):
    """The repository's own names: those of definitions, by kind, and where they are defined."""
    words, fields = set(), set()
    for path in texts(root, ".antt"):
        in_record = None
        of_function = "/proofs/" in path and os.path.basename(path) in ("Proof.antt", "Answers.antt", "Invariants.antt")
        for line in read(path).splitlines():
            if re.match(r"\s*(--|use |pub use |mod |pub mod |unfolding |open )", line):
                continue
            depth = len(line) - len(line.lstrip())
            if in_record is not None and line.strip() and depth <= in_record:
                in_record = None
            head = DECLARED.match(line)
            if head:
                if head.group(1) in ("record", "data"):
                    in_record = depth
                continue
            of = DEFINED.match(line)
            if of and re.match(r".*:\s+goal\.", line):
                continue
            if of and not of.group(2):
                name = of.group(1)
                if of_function and (name.startswith(("invariant-", "decreases-")) or MADE.match(name)):
                    continue
                (fields if in_record is not None else words).add(name)
    return words, fields


def kept(name):
    return not re.match(r"[a-z]", name) or bool(re.match(r"^[a-z]+-F$", name))


def parts_of(name):
    return re.split(r"(→|-)", name)


def table(root):
    words, fields = own(root)
    # A definition of specs/, beside which a dash stays.
    defined = set(NAMES)
    for path in texts(root, ".antt"):
        if "/specs/" in path:
            for line in read(path).splitlines():
                of = DEFINED.match(line)
                if of and not of.group(2) and not re.match(r"\s*(--|use )", line) and "-" not in of.group(1):
                    defined.add(of.group(1))
    defined |= {snake(it) for it in defined}
    types = set()
    for path in texts(root, ".antt"):
        for line in read(path).splitlines():
            of = DEFINED.match(line)
            if of and not of.group(2) and re.search(r"→ Type 0\s*$", line) and not re.match(r"\s*(--|use )", line):
                types.add(of.group(1))
    out = {}
    for name in sorted(words | fields):
        if kept(name) or not re.search(r"-|[a-z0-9][A-Z]", name):
            continue
        new, before = name, None
        while new != before:
            before, new = new, spelled(new, name in words, defined)
        if name in types:
            new = "".join(it[:1].upper() + it[1:] for it in new.split("_"))
        if new != name:
            out[name] = new
    # A lemma that would have the name of a definition, or of a function, gets an ending.
    every = words | fields
    taken = collections.Counter(out.values())
    for old, new in out.items():
        if "-" in old and (new in every or taken[new] > 1):
            out[old] = new + "_lem"
    out.update({old: new for old, new in BESIDE.items() if old in every})
    return out, every


def spelled(name, is_word, defined):
    """Each part in snake case; a dash stays between two names."""
    pieces = parts_of(name)
    new = snake(pieces[0])
    for sign, piece in zip(pieces[1::2], pieces[2::2]):
        here = snake(piece)
        if sign == "-" and not (is_word and last(new) in defined and here in defined):
            sign = "_"
        new += sign + here
    return new


def last(name):
    return re.split(r"→|-", name)[-1]


def turned(text, out):
    return TOKEN.sub(lambda m: out.get(m.group(0), m.group(0)), text)


def turned_code(text, out):
    """Names in the ghost lines, and lower camel case ones anywhere: Rust's own names have none."""
    lines, depth = [], 0
    for line in text.split("\n"):
        ghost = re.match(r"\s*(ghost |requires|ensures|pub ghost )", line) or depth > 0
        if ghost:
            lines.append(turned(line, out))
            depth = max(0, depth + line.count("{") - line.count("}"))
        else:
            lines.append(turned(line, {k: v for k, v in out.items() if camel(k.split("-")[0]) or "→" in k}))
    return "\n".join(lines)


def quoted(text, out):
    return re.sub(r"`[^`\n]*`", lambda m: turned(m.group(0), out), text)


def main(words):
    root = os.getcwd()
    if not os.path.isdir(os.path.join(root, "crates")):
        raise SystemExit("respell: run it at the top of the repository")
    out, every = table(root)
    together = collections.defaultdict(set)
    for old, new in out.items():
        together[new].add(old)
        if new in every:
            together[new].add(new)
    for new, olds in sorted(together.items()):
        if len(olds) > 1:
            print(f"fall together: {' '.join(sorted(olds))} -> {new}", file=sys.stderr)
    if "--list" in words:
        for old, new in sorted(out.items()):
            print(f"{old}\t{new}")
        return
    changed = 0
    for ending, turn in ((".antt", None), (".rt", turned_code), (".edit", None)):
        for path in texts(root, ending):
            before = read(path)
            if ending == ".antt":
                after = "\n".join(
                    re.sub(r"(?<!\S)--.*", lambda m: quoted(turned(m.group(0), {k: v for k, v in out.items() if camel(k)}), out), line)
                    if line.lstrip().startswith("--")
                    else turned(line, out)
                    for line in before.split("\n")
                )
            elif ending == ".edit":
                after = turned(before, out)
            else:
                after = turn(before, out)
            if after != before:
                with open(path, "w", encoding="utf-8", newline="") as it:
                    it.write(after)
                changed += 1
    # The texts name definitions as they were before: in lower camel case, and with dashes.
    names = every | set(out.values())
    plain = dict(out)

    def known(m):
        word = m.group(0)
        if word in plain:
            return plain[word]
        for new in (snake(word), "_".join(snake(it) for it in word.split("-"))):
            if new != word and new in names:
                return new
        return word

    for folder in ("docs", "include", "reference", "examples", "."):
        for f in sorted(os.listdir(os.path.join(root, folder))) if os.path.isdir(os.path.join(root, folder)) else []:
            path = os.path.join(root, folder, f)
            if not f.endswith((".md", ".h", ".rs")) or (folder == "." and f != "README.md") or f.startswith("PORT"):
                continue
            before = read(path)
            after = re.sub(r"`[^`\n]*`", lambda m: TOKEN.sub(known, m.group(0)), before)
            if after != before:
                with open(path, "w", encoding="utf-8", newline="") as it:
                    it.write(after)
                changed += 1
    print(f"respell: {len(out)} names, {changed} files")


if __name__ == "__main__":
    main(sys.argv[1:])
