#!/usr/bin/env python3
"""Brings the names of this repository's own definitions and lemmas to the kit's spelling: words in snake case, types in camel case.

usage: tools/respell.py [--list]      at the top of the repository, once, right after the kit's own port script

A name is a definition's, a lemma's, a field's, a constructor's or a local one in specs/ or proofs/ that has a dash: `from-to` becomes
`from_to`, and a type's, as `Answers-row`, `AnswersRow`. Names that the checker makes (goals, steps, invariants) keep theirs, and so does
everything that is Rust's. Comments are left alone. Where two names would fall together it says so and writes nothing. With --list it
prints the names and writes nothing.
"""

import os
import re
import sys

NAME = r"[^\s:(){}\[\],;.«»@]+"
# a signature's name, where it is a record's or a type's of cases with that word before it
SIGNATURE = re.compile(r"^(?:abbrev |unfoldable )*(?:pub )?(?:(record|data) (?=.* : )|(?=\S+ : ))(" + NAME + r")(?=\s)")
# a field, a constructor, or a signature in a block
INDENTED = re.compile(r"^ +(?:pub )?(" + NAME + r") : ")
# a local name: of a `let`, a parameter, or after an `as`
LOCAL = re.compile(r"(?:\blet |[({]|\bas )([A-Za-z][\w']*(?:-[\w']+)+)(?= [:=]|[,}])")
NO_SIGNATURE = ("use ", "--", "unfolding ", "let ", "mod ", "pub mod ", "infix", "pub use ")
# what a name is made of; a dot stands between the parts of a path or a projection
PART = r"[\w'′₀-₉-]"
# names that the checker makes come in by these lines, or behind these variables of a proof
MADE = re.compile(r"use Rattle\.\w+\.proofs\..*\.(Goals|Given)\.\{")
STEP = re.compile(r"(?:^|[^\w'])(c|w|l|goal|g)(\.[\w'«»-]+)*\.$")


def files(kind):
    """The files of one folder kind (specs, proofs, src), over all crates, with their texts."""
    for crate in sorted(os.listdir("crates")):
        for folder, dirs, names in os.walk(os.path.join("crates", crate, kind)):
            dirs.sort()
            for name in sorted(names):
                if name.endswith((".antt", ".rt")):
                    path = os.path.join(folder, name)
                    with open(path, encoding="utf-8") as f:
                        yield path, f.read()


def made_by_the_checker(name, text):
    """A goal's answer or an invariant: its statement is the goal of that name."""
    return re.search(rf"^(?:abbrev )?(?:pub )?{re.escape(name)} : goal\.{re.escape(name)}", text, re.M) is not None


def spelled(name, is_type):
    name = name.replace("′", "'")
    if is_type:
        return "".join(part[:1].upper() + part[1:] for part in name.split("-"))
    return name.replace("-", "_")


def defined(text):
    """The names that a text defines, each with whether it is a type's and whether it is a field's or in a block."""
    for line in text.split("\n"):
        indented = INDENTED.match(line)
        signature = None if line.startswith(NO_SIGNATURE) else SIGNATURE.match(line)
        if indented:
            yield indented[1], False, True
        elif signature and not made_by_the_checker(signature[2], text):
            yield signature[2], bool(signature[1]) or re.search(r"Type \d$", line) is not None, False
        elif not signature:
            for local in LOCAL.finditer(line.partition("--")[0]):
                if not line.startswith("use ") or local[0].startswith("as "):
                    yield local[1], local[1][0].isupper(), False


def own_names():
    """The names to be turned, each with its new spelling; the fields among them; and each name with the files that define it."""
    new, fields, there = {}, set(), {}
    for kind in ("specs", "proofs"):
        for path, text in files(kind):
            for name, is_type, is_field in defined(text):
                there.setdefault(name, set()).add(path)
                if is_field:
                    fields.add(name)
                if re.fullmatch(PART + "+", name) and ("-" in name or "′" in name):
                    to = spelled(name, is_type)
                    if new.setdefault(name, to) != to:
                        sys.exit(f"{path}: {name} is to be both {new[name]} and {to}")
    return new, fields, there


def clashes(new, there):
    """Names that fall together, or on a name that is there."""
    back = {}
    for name, to in new.items():
        back.setdefault(to, []).append(name)
    for to, names in sorted(back.items()):
        if len(names) > 1 or to in there:
            where = sorted(there.get(to, set()).union(*(there[name] for name in names)))
            yield f"{' and '.join(names)} would be {to}: {' '.join(where)}"


def turned(text, pattern, new, fields, comment):
    out = []
    for line in text.split("\n"):
        code, mark, rest = line.partition(comment)

        def swap(found):
            if STEP.search(code[: found.start()]) and found[0] not in fields:
                return found[0]
            return new[found[0]]

        if not MADE.match(code) and not (comment == "//" and re.match(r"\s*use ", code)):
            code = pattern.sub(swap, code)
        out.append(code + mark + rest)
    return "\n".join(out)


def main():
    new, fields, there = own_names()
    together = list(clashes(new, there))
    if together:
        sys.exit("\n".join(together))
    if "--list" in sys.argv:
        for name in sorted(new):
            print(name, new[name])
        return
    if not new:
        sys.exit("no name has a dash: nothing to do")
    names = "|".join(re.escape(name) for name in sorted(new, key=len, reverse=True))
    pattern = re.compile(rf"(?<!{PART})({names})(?!{PART})")
    changed = 0
    for kind, comment in (("specs", "--"), ("proofs", "--"), ("src", "//")):
        for path, text in files(kind):
            to = turned(text, pattern, new, fields, comment)
            if to != text:
                with open(path, "w", encoding="utf-8") as f:
                    f.write(to)
                changed += 1
    print(f"{len(new)} names, {changed} files")


if __name__ == "__main__":
    main()
