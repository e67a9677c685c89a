#!/usr/bin/env python3
"""Spells the repository's own definitions and lemmas in snake case: `plus-nine` and `plusC` become `plus_nine` and `plus_c`.

usage: tools/respell.py            in specs/, proofs/ and the clauses of src/, and in must-fail edits
       tools/respell.py --list     prints each old and new name and writes nothing
       tools/respell.py FILE ..    the code spans of these pages

Types and modules keep their camel case, constants their capitals. A name of a library stays as it is in a file that
imports it from there. Functions of src/, exported names, strings, inputs and outputs are not touched.
"""
import collections
import os
import re
import sys

TOP = os.path.dirname(os.path.dirname(os.path.abspath(__file__)))
WORD = r'[^\s(){}.;,@"«»`]+'
DECLARED = re.compile(rf"^ *(?:(?:pub|abbrev|unfoldable|private|opaque|infixl?|infixr) +)*({WORD}(?: +{WORD})*?)(?: *\{{[^{{}}\n]*\}})* +: ")
KIND = re.compile(rf"^ *(?:(?:pub|abbrev|unfoldable) +)*(?:record|data) +({WORD})")
# What a proof file answers, whose names Rattle makes.
MADE = re.compile(r":(?: \{M : Type 1\} →)? (?:tie\.|statement\b|pinned\b|goal\.)")
ALIAS = re.compile(rf" as ({WORD})")
# A lemma that would have its function's name.
LEMMAS = "piece-arc piece-trace added-due after-count all-due angle-within at-half at-infinite-x at-infinity at_one at-three-halves at-zero-y box-line cone-within corners-line ends-within in-quadrant ratio-angle refused-by rows-nine sine-series some-due step_by turn-angle".split()
APART = {it: it.replace("-", "_") + "_lem" for it in LEMMAS}


def files(*kinds):
    for folder, folders, names in os.walk(os.path.join(TOP, "crates")):
        folders[:] = sorted(it for it in folders if it not in ("out", "data"))
        for name in sorted(names):
            if name.endswith(kinds):
                yield os.path.join(folder, name)


def snake(name):
    if name in APART:
        return APART[name]
    parts = []
    for part in name.split("-"):
        if re.match(r"[a-z]", part) and re.search(r"[a-z0-9][A-Z]|[a-z]['’]?[A-Z]", part):
            part = re.sub(r"[A-Z]", lambda it: "_" + it[0].lower(), part)
        parts.append(part)
    return "_".join(parts)


def is_old(name):
    if re.fullmatch(r"[^\w]*", name) or "◌" in name:
        return False
    return bool(re.search(r"[\w'ʳ≤≡ℕ]-[\w≤≡ℕ]", name) or re.match(r"[a-z]\w*[A-Z]", name))


def text_of(path):
    with open(path, encoding="utf-8") as it:
        return it.read()


def declared():
    """The names that specs/ and proofs/ declare, each with the files that do so."""
    found = collections.defaultdict(set)
    for path in files(".antt", ".rt"):
        for line in text_of(path).splitlines():
            if line.lstrip().startswith("--"):
                continue
            if MADE.search(line):
                continue
            if re.match(r" *(?:ghost )?(?:pub )?use ", line):
                for name in ALIAS.findall(line):
                    found[name].add(path)
                continue
            if path.endswith(".rt"):
                continue
            for it in (DECLARED.match(line), KIND.match(line)):
                for name in it[1].split() if it else ():
                    found[name].add(path)
    return found


def table():
    of = declared()
    rows = {}
    for name in of:
        if is_old(name) or name in APART:
            rows[name] = snake(name)
    return rows, of


USE = re.compile(r"\buse +([^\s;{]+?)\.?(?:\{([^}]*)\})?(?: as [^\s;]+)?\s*(?:;|$)", re.M)


def foreign(text):
    """The names that a file imports from a library that is not ours."""
    names = set()
    for it in USE.finditer(text):
        of_ours = re.match(r"(?:Rattle\.(?!std\b|core\b|io\b|os\b|libc\b|bytes\b|check\b)\w+|package)\b", it[1])
        if not of_ours:
            names |= {w.split(" as ")[0].strip() for w in (it[2] or "").split(",")}
    return names


def respelled(text, rows, comment):
    stay = foreign(text)

    def word(it):
        return rows.get(it[0], it[0]) if it[0] not in stay else it[0]

    def spans(line):
        return re.sub(r"`[^`\n]*`", lambda it: re.sub(WORD, word, it[0]), line)

    out = []
    for line in text.split("\n"):
        at = re.search(rf"(?:^|(?<=[\s(])){re.escape(comment)}", line)
        code, said = (line[: at.start()], line[at.start() :]) if at else (line, "")
        if code.startswith(("file: ",)):
            out.append(line)
            continue
        quoted = re.split(r'("(?:[^"\\\n]|\\.)*")', code)
        quoted[::2] = [re.sub(WORD, word, it) for it in quoted[::2]]
        out.append("".join(quoted) + spans(said))
    return "\n".join(out)


def main(args):
    rows, of = table()
    new = collections.defaultdict(set)
    for name in of:
        new[rows.get(name, name)].add(name)
    for name, olds in sorted(new.items()):
        if len(olds) > 1:
            print(f"look: {', '.join(sorted(olds))} would all be {name}", file=sys.stderr)
    if args == ["--list"]:
        for name in sorted(rows):
            print(f"{name}\t{rows[name]}")
        return
    if args:
        for path in args:
            text = text_of(path)
            turned = re.sub(r"`[^`\n]*`", lambda it: re.sub(WORD, lambda w: rows.get(w[0], w[0]), it[0]), text)
            if turned != text:
                with open(path, "w", encoding="utf-8") as it:
                    it.write(turned)
        return
    for path in files(".antt", ".rt", ".edit"):
        text = text_of(path)
        turned = respelled(text, rows, "//" if path.endswith(".rt") else "--")
        if turned != text:
            with open(path, "w", encoding="utf-8") as it:
                it.write(turned)


if __name__ == "__main__":
    main(sys.argv[1:])
