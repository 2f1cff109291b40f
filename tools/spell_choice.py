#!/usr/bin/env python3
"""Gives the repository's own choice, if◌then◌else◌ of dlx/specs/Choice.antt, a name of its own, when◌then◌else◌: today's library has an operator of the old name, and `rt ci`
refuses another one under it. Its definition, its fixity and every use stay. Run once, at the top of the repository; a second run changes nothing.

In files of specs/ and proofs/ each word `if` outside comments and texts is this operator; in files of src/ so are those in clauses, where it is imported; and in
must-fail edits, those in the texts of such files.
"""

import os
import re
import sys

OLD, NEW = "if◌then◌else◌", "when◌then◌else◌"
PIECE = re.compile(r'"(?:\\.|[^"\\\n])*"|\{-.*?-\}|--[^\n]*|[^\s(){}\[\].;,@"«»\\]+', re.S)
CLAUSE = re.compile(r"\b(?:requires|ensures)\b\s*\*?\s*(?:\w+\s*)?\{|\bghost\s+\w+\s*[:=]\s*\{")


def spelled(text):
    """Spells a text of antt."""
    return PIECE.sub(lambda m: {"if": "when", OLD: NEW}.get(m[0], m[0]), text)


def clauses(text):
    """Spells the clauses of a file of src/."""
    out, at = [], 0
    for m in CLAUSE.finditer(text):
        if m.start() < at:
            continue
        depth, end = 1, m.end()
        while depth:
            depth += {"{": 1, "}": -1}.get(text[end], 0)
            end += 1
        out += [text[at : m.end()], spelled(text[m.end() : end])]
        at = end
    return "".join(out) + text[at:]


def edit(text):
    """Spells a must-fail edit."""
    lines, of = [], ""
    for line in text.split("\n"):
        if line.startswith("file: "):
            of = line
        if line.startswith(("old: ", "new: ")) and of.endswith(".antt"):
            line = line[:5] + spelled(line[5:])
        lines.append(line)
    return "\n".join(lines)


def main():
    root = os.path.join(os.path.dirname(os.path.realpath(__file__)), "..", "crates")
    changed = 0
    for folder, folders, names in os.walk(root):
        folders[:] = sorted(it for it in folders if it != "out")
        for name in sorted(names):
            path = os.path.join(folder, name)
            if name.endswith((".antt", ".rt", ".edit")):
                text = open(path, encoding="utf-8").read()
                if name.endswith(".antt"):
                    new = spelled(text)
                elif name.endswith(".edit"):
                    new = edit(text)
                else:
                    new = clauses(text.replace("Rattle.dlx.specs.Choice.{" + OLD, "Rattle.dlx.specs.Choice.{" + NEW)) if "Rattle.dlx.specs.Choice" in text else text
                if new != text:
                    open(path, "w", encoding="utf-8").write(new)
                    changed += 1
    print(f"{changed} files", file=sys.stderr)


main()
