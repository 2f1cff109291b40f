#!/usr/bin/env python3
"""Spells the repository's own definitions and lemmas in snake case, as levelOf to level_of and take-bytes to take_bytes. Run once, right behind port.py.

usage: tools/spell_names.py [--list] [--again]        --list prints the rows and writes nothing; --again, where it ran before, leaves what it told apart

A name is the repository's own if a file of specs/ or a lemma file of proofs/ declares it; functions of src/, their folders in proofs/, and the names that
Rattle makes keep theirs. Where a lemma and its definition would fall together in a file, the lemma gets `_lem`.
"""

import collections
import os
import re
import sys

WORD = re.compile(r"[^\s(){}\[\].;,@\"«»\\]+")
DECLARED = re.compile(r"^\s*(?:(?:abbrev|unfoldable|pub|data|record|syntax)\s+)*((?:[^\s(){}.;,@\"«»:=]+ )+?)(?:\([^()]*\) |\{[^{}]*\} )*:(?: |$)")
ALIAS = re.compile(r" as ([a-z][\w'-]*)")
LIBRARY_USE = re.compile(r"use ([\w.+'-]+?)\.?\{([^}]*)\}")
STRING = re.compile(r'"(?:\\.|[^"\\\n])*"')
CLAUSE = re.compile(r"(?:\b(?:requires|ensures)\s*\*?\s*(?:\w+\s*)?\{|\bghost\s+\w+\s*:\s*\{)")
GHOST_USE = re.compile(r"ghost\s+use\b[^;]*;", re.S)

# Lemmas that would fall together with a definition that had capitals.
BESIDE = ["by-table", "counted-on", "first-from", "first-of", "one-verdict", "run-verdict", "whole-frames"]

# Names that would fall together with another: a lemma gets `_lem` behind its definition's name.
FALL_TOGETHER = {
    "decimal-in": "decimal_in_lem",
    "first-line": "first_line_lem",
    "frame-kept": "frame_kept_lem",
    "fresh-of": "fresh_of_lem",
    "guest-words": "guest_words_lem",
    "in-system": "system_processor",
    "last_line": "last_line_lem",
    "lent-for": "lent_for_lem",
    "lines-behind": "lines_behind_lem",
    "no-house": "no_house_lem",
    "other-size": "other_size_lem",
    "saved-file": "saved_file_lem",
    "saved-over": "saved_over_lem",
    "told-by": "told_by_lem",
    "with-frames": "with_frames_lem",
    "with-turns": "with_turns_lem",
    "word-said": "word_said_lem",
    "words-from": "words_from_lem",
    "wrong-from": "wrong_from_lem",
    # a fact is spelled as a type
    "steppedTo": "SteppedTo",
}


def files(root):
    for folder, dirs, names in os.walk(os.path.join(root, "crates")):
        dirs[:] = sorted(d for d in dirs if d != "out")
        for name in sorted(names):
            if name.endswith((".rt", ".antt")):
                yield os.path.join(folder, name)


def is_lemma_file(path):
    parts = path.split(os.sep)
    at = len(parts) - 1 - parts[::-1].index("crates")
    return parts[at + 2] == "specs" or parts[at + 2] == "proofs" and parts[-1] not in ("Proof.antt", "Answers.antt", "Invariants.antt")


def spelled(name):
    if "-" not in name and (name[0].isupper() or not re.search(r"[a-z0-9][A-Z]", name)):
        return name
    head, tail = (name[0], name[1:]) if name[0].isupper() else ("", name)
    tail = re.sub(r"^getD\b", "get_or", re.sub(r"^toZ\b", "to_int", tail))
    tail = re.sub(r"(?<=[a-z0-9])([A-Z])", lambda m: "_" + m.group(1).lower(), tail)
    return (head + tail).replace("-", "_")


def lines_of(text):
    return [line for line in text.split("\n") if not line.lstrip().startswith("--")]


def rows(root):
    declared = collections.defaultdict(set)
    for path in files(root):
        with open(path, encoding="utf-8") as f:
            text = f.read()
        for use in re.findall(r"use [^;{}]*\{[^}]*\}", text) if path.endswith(".rt") or is_lemma_file(path) else []:
            for name in ALIAS.findall(use):
                declared[name].add(path)
        if not path.endswith(".antt"):
            continue
        for line in lines_of(text):
            m = DECLARED.match(line + " " if line.endswith(":") else line)
            if m and is_lemma_file(path):
                for name in m.group(1).split():
                    declared[name].add(path)
    return {n: spelled(n) for n in declared if spelled(n) != n}


def turned(path, text, table):
    """The text with each whole word of the table spelled anew."""
    labels = path.endswith(".antt") and not is_lemma_file(path)
    own = os.listdir(os.path.join(os.path.dirname(os.path.realpath(__file__)), "..", "crates"))
    for module, names in LIBRARY_USE.findall(text):
        steps = module.split(".")
        if steps[0] == "Rattle" and len(steps) > 1 and steps[1] in own:
            continue
        table = {k: v for k, v in table.items() if k not in re.split(r"[,\s]+", names)}

    def word(m):
        w = m.group(0)
        if labels and m.start() and m.string[m.start() - 1] == ".":
            return w
        bare = w.strip("`:!?*")
        return w.replace(bare, table[bare]) if bare in table else w

    def code(part):
        return WORD.sub(word, part)

    if path.endswith(".antt"):
        out, at = [], 0
        for m in STRING.finditer(text):
            out += [code(text[at : m.start()]), m.group(0)]
            at = m.end()
        return "".join(out) + code(text[at:])
    # .rt: ghost uses and clauses alone
    spans = [(m.start(), m.end()) for m in GHOST_USE.finditer(text)]
    for m in CLAUSE.finditer(text):
        depth, i = 1, m.end()
        while depth and i < len(text):
            depth += {"{": 1, "}": -1}.get(text[i], 0)
            i += 1
        spans.append((m.end(), i))
    for m in re.finditer(r"//[^\n]*", text):
        spans.append((m.start(), m.end()))
    out, at = [], 0
    for a, b in sorted(spans):
        if a < at:
            continue
        out += [text[at:a], code(text[a:b])]
        at = b
    return "".join(out) + text[at:]


def main():
    root = os.path.join(os.path.dirname(os.path.realpath(__file__)), "..")
    table = rows(root)
    table.update({name: spelled(name) + "_lem" for name in BESIDE if name in table})
    if "--again" not in sys.argv:
        table.update(FALL_TOGETHER)
    if "--list" in sys.argv:
        for old in sorted(table):
            print(f"{old}\t{table[old]}")
    n = 0
    for path in files(root):
        with open(path, encoding="utf-8") as f:
            text = f.read()
        words = set(WORD.findall(text))
        met = collections.defaultdict(set)
        for w in words:
            met[table.get(w, w)].add(w)
        for new, olds in met.items():
            if len(olds) > 1:
                print(f"look: {os.path.relpath(path, root)}: {sorted(olds)} fall together as {new}")
        new = turned(path, text, table)
        if new != text:
            n += 1
            if "--list" not in sys.argv:
                with open(path, "w", encoding="utf-8") as f:
                    f.write(new)
    print(f"{len(table)} names, {n} files")


if __name__ == "__main__":
    main()
