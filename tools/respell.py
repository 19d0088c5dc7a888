#!/usr/bin/env python3
"""Brings the names of this repository's definitions and lemmas to today's spelling: snake case.

    python3 tools/respell.py [TOP]

Run once, on what the kit's port.py left. It turns each name that an .antt file under specs/ or proofs/ declares, a
definition, a lemma, a record's field or a constructor, and each name that a proof binds by `let`: a dash becomes `_`,
and a capital inside a name that begins small becomes `_` and the small letter. It writes them so wherever they stand
in .antt files and in the clauses and ghost items of .rt files. It also writes the library's `AllByRecursion` by its own
name, since no import may stand under the name `All` for something else than the library's `All`.

Left alone: names of src/ and what Rattle makes of them (goals, steps, generated modules), names of a library, and names
that a pattern or a λ binds. It stops, with nothing written, if a new name is declared already, if two names become one, or if
a name that `let` binds would become one that stands in its file. The lines that it prints of names that both stand in a file
are warnings: there a name of src/ or of a record has that spelling.
"""
import os
import re
import sys

TOKEN = re.compile(r"[A-Za-zℕℤ0-9_Ͱ-Ͽ₀-₉'][A-Za-zℕℤ0-9_Ͱ-Ͽ₀-₉'-]*")
DECLARED = re.compile(r"^\s{0,12}(?:(?:abbrev|unfoldable|pub) )*([^\s:(){}\[\],;.=|]+)(?:\s+[({][^=]*?[)}])*\s+:\s+(.*)$")
TYPE = re.compile(r"^\s*(?:pub )?(?:data|record) ")
LOCAL = re.compile(r"\blet ([a-z][A-Za-z0-9]*(?:-[a-z0-9]+)+)(?= :| =)")
WORDS = {"elim", "let", "in", "where", "use", "mod", "open", "module", "record", "data", "λ"}
ANSWERS = ("Answers.antt", "Invariants.antt", "Choices.antt")


def snake(name):
    new = name.replace("-", "_")
    if new[0].islower():
        new = re.sub(r"([a-z0-9])([A-Z])", lambda m: m[1] + "_" + m[2].lower(), new)
    return new


def files(top, end):
    for folder, below, names in os.walk(os.path.join(top, "crates")):
        below[:] = sorted(b for b in below if b not in ("out", "target", "data"))
        for name in sorted(names):
            if name.endswith(end):
                yield os.path.join(folder, name)


def without_comment(line):
    comment = re.search(r"(^|\s)--(\s|$)", line)
    return line[: comment.start()] if comment else line


def declared(text):
    """The names that an .antt file declares, the goals that it answers left out."""
    out = set()
    for line in map(without_comment, text.splitlines()):
        found = None if TYPE.match(line) else DECLARED.match(line)
        if found and found[1] not in WORDS and not found[2].startswith("goal."):
            out.add(found[1])
    return out


def in_antt(text, turned, answers):
    """An .antt file with its names turned. In answers, what follows `c.` and its like is a step of Rattle's."""

    def line_of(line):
        if re.match(r"^\s*(abbrev )?(pub )?\S+ : goal\.", line):
            return line

        def turn(m):
            is_step = answers and re.search(r"\b(c|w|l|goal)\.$", line[: m.start()])
            return m[0] if is_step else turned.get(m[0], m[0])

        return TOKEN.sub(turn, line)

    return "".join(map(line_of, text.splitlines(True)))


def in_rt(text, turned):
    """A .rt file with the names in its clauses and ghost items turned."""
    out, depth = [], 0
    for line in text.splitlines(True):
        if depth > 0 or re.match(r"\s*(ghost |requires|ensures|also_|invariant)", line):
            out.append(TOKEN.sub(lambda m: turned.get(m[0], m[0]), line))
            depth = max(0, depth + line.count("{") - line.count("}"))
        else:
            out.append(line)
    return "".join(out)


def by_recursion(text):
    if "AllByRecursion as All" not in text:
        return text
    text = text.replace("AllByRecursion as All", "AllByRecursion")
    return re.sub(r"(?<![A-Za-z0-9_.'-])All(?![A-Za-z0-9_'-])", "AllByRecursion", text)


def main():
    top = sys.argv[1] if len(sys.argv) > 1 else "."
    texts = {p: open(p, encoding="utf-8").read() for p in files(top, ".antt")}
    names = set().union(*map(declared, texts.values()))
    turned = {n: snake(n) for n in names if snake(n) != n}

    become = {}
    for old, new in turned.items():
        become.setdefault(new, []).append(old)
    bad = [f"{', '.join(olds)} become {new}" for new, olds in become.items() if len(olds) > 1]
    bad += [f"{new} is declared already" for new in become if new in names]

    used = {p: set(TOKEN.findall("\n".join(map(without_comment, t.splitlines())))) for p, t in texts.items()}
    bound = {p: {n: snake(n) for n in LOCAL.findall(t) if n not in turned} for p, t in texts.items()}
    bad += [f"{p}: {old} would become {new}, which stands there" for p in texts for old, new in bound[p].items() if new in used[p]]
    if bad:
        sys.exit("\n".join(bad))
    for old, new in sorted(turned.items()):
        both = [os.path.relpath(p, top) for p in texts if {old, new} <= used[p]]
        if both:
            print(f"{old} and {new}, another's name, both stand in {', '.join(both)}")

    for path, text in texts.items():
        new = by_recursion(in_antt(text, turned | bound[path], os.path.basename(path) in ANSWERS))
        if new != text:
            open(path, "w", encoding="utf-8").write(new)
    for path in files(top, ".rt"):
        text = open(path, encoding="utf-8").read()
        new = in_rt(text, turned)
        if new != text:
            open(path, "w", encoding="utf-8").write(new)
    print(f"{len(turned)} names turned")


if __name__ == "__main__":
    main()
