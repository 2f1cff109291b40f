#!/usr/bin/env python3
"""Counts in src/ the places of the points of docs/DESIGN-PASS.md: `tools/places.py [POINT] [-l]`, with -l each place in a line. It reads text; what a place is worth is for a reader."""
import collections
import glob
import os
import re
import sys

TOP = os.path.join(os.path.dirname(os.path.abspath(__file__)), "..")
WORDS = r"(?:bool|u8|u16|u32|u64|usize|isize)"


def sources():
    for path in sorted(glob.glob(os.path.join(TOP, "crates", "*", "src", "**", "*.rt"), recursive=True)):
        yield os.path.relpath(path, TOP), open(path, encoding="utf-8").read()


def line_of(text, at):
    return text.count("\n", 0, at) + 1


def blocks(text, head):
    """Each item that begins with the pattern, as (offset, its text up to the line with its closing brace)."""
    for found in re.finditer(head, text, re.M):
        end = re.compile(r"^" + found.group(1) + r"\}", re.M).search(text, found.end())
        yield found.start(), text[found.start() : end.end() if end else found.end()]


def functions(text):
    for found in re.finditer(r"^( *)(?:pub(?:\(crate\))? )?(?:extern \"C\" )?fn (\w+)", text, re.M):
        body = re.compile(r"^" + found.group(1) + r"\{|\{$", re.M).search(text, found.end())
        head = text[found.start() : body.start() if body else found.end()]
        end = re.compile(r"^" + found.group(1) + r"\}", re.M).search(text, found.end())
        yield found.start(), found.group(2), head, text[found.start() : end.end() if end else found.end()]


def point_1():
    """A bool beside other fields of a struct; a field or an answer that is a number of a refusal, a fault or a kind; an own enum with two variants."""
    for path, text in sources():
        for at, item in blocks(text, r"^( *)(?:pub )?struct \w+[^;{]*\{"):
            if len(re.findall(r": ", item)) > 1:
                for flag in re.finditer(r"^ *(?:pub )?(\w+): bool,", item, re.M):
                    yield path, line_of(text, at + flag.start()), "a flag: " + item.split("{")[0].strip() + " " + flag.group(1)
            for number in re.finditer(r"^ *(?:pub )?(number|code|kind|refusal|fault|awaits|op): u(?:8|32)", item, re.M):
                yield path, line_of(text, at + number.start()), "a number: " + item.split("{")[0].strip() + " " + number.group(1)
        for at, item in blocks(text, r"^( *)(?:pub )?enum \w+[^{]*\{"):
            if len(re.findall(r"^ *\w+(?:\([^)]*\))?,", item, re.M)) == 2:
                yield path, line_of(text, at), "two variants: " + item.split("{")[0].strip()
        for at, name, head, _ in functions(text):
            if re.search(r"(refusal|refuses|fault|code|kind|wrong)", name) and re.search(r"-> u(?:8|32)\b", head):
                yield path, line_of(text, at), "answers a number: " + name


def point_2():
    """Functions of one file whose bodies are the same but for names and numbers (`duplicates` shows pairs across files)."""
    for path, text in sources():
        shapes = collections.defaultdict(list)
        for at, name, head, whole in functions(text):
            body = whole[len(head) :]
            if body.count("\n") < 4:
                continue
            seen = {}
            shape = re.sub(r"\b[a-zA-Z_]\w*\b|\b\d[\w]*", lambda w: w.group(0) if w.group(0) in KEY else seen.setdefault(w.group(0), str(len(seen))), body)
            shapes[re.sub(r"\s+", " ", shape)].append((line_of(text, at), name))
        for same in shapes.values():
            if len(same) > 1:
                yield path, same[0][0], "alike: " + ", ".join(name for _, name in same)


KEY = {"let", "mut", "if", "else", "while", "for", "in", "return", "match", "true", "false", "as", "fn"}


def point_3():
    """Each `while` and `loop`."""
    for path, text in sources():
        for found in re.finditer(r"^ *(?:while|loop)\b.*", text, re.M):
            yield path, line_of(text, found.start()), found.group(0).strip()


def point_4():
    """A function that is a comparison, a minimum, a copy, a conversion of one number type to another or a digit's value, by its name or body."""
    for path, text in sources():
        for at, name, head, whole in functions(text):
            body = whole[len(head) :]
            if re.fullmatch(r"\{\s*\w+ as u\w+\s*\}", body.strip()) or re.search(r"^(is|same|equal|copy|least|limit|up_to|short|used|digit)$", name):
                yield path, line_of(text, at), name


def point_5():
    """A fact that stands in the requires of three or more functions of a crate (by its text), and four or more parameters that three or more functions take in one row."""
    facts, rows = collections.Counter(), collections.Counter()
    for path, text in sources():
        crate = path.split("/")[1]
        for at, name, head, _ in functions(text):
            for fact in re.findall(r"requires \w*\s*\{ (.*) \}", head):
                facts[crate, fact] += 1
            parameters = re.findall(r"(\w+): ", head.split("requires")[0].split("ensures")[0])
            parameters = [p for p in parameters if p != "rt"]
            for i in range(len(parameters) - 3):
                rows[crate, " ".join(parameters[i : i + 4])] += 1
    for (crate, fact), n in sorted(facts.items()):
        if n >= 3:
            yield "crates/" + crate, n, "a fact: " + fact
    for (crate, row), n in sorted(rows.items()):
        if n >= 3:
            yield "crates/" + crate, n, "a row: " + row


def point_6():
    """A buffer with a position or a length beside it among the parameters; an array with its length in another field."""
    for path, text in sources():
        for at, name, head, _ in functions(text):
            if re.search(r"\b\w+: &mut \[u8(?:; \d+)?\],\s*(?:at|end|from|k|n): (?:usize|u32)", head):
                yield path, line_of(text, at), name


def point_7():
    """A function that chooses among steps by a number: a match or a row of ifs over a number that tells what to do."""
    for path, text in sources():
        for found in re.finditer(r"match (?:\w+\.)?(op|kind|shape|style|code|number)\b", text):
            yield path, line_of(text, found.start()), found.group(0)


def point_8():
    """The answers of proofs/, by crate."""
    for folder in sorted(glob.glob(os.path.join(TOP, "crates", "*"))):
        files = glob.glob(os.path.join(folder, "proofs", "**", "Answers.antt"), recursive=True)
        answers = sum(len(re.findall(r"^(?:abbrev )?pub [^:]* : goal", open(f, encoding="utf-8").read(), re.M)) for f in files)
        for _ in range(answers):
            yield os.path.relpath(folder, TOP), answers, "an answer"


POINTS = {"1": point_1, "2": point_2, "3": point_3, "4": point_4, "5": point_5, "6": point_6, "7": point_7, "8": point_8}


def main():
    words = [w for w in sys.argv[1:] if w != "-l"]
    for number, point in POINTS.items():
        if words and number not in words:
            continue
        places = list(point())
        print(f"{number}: {len(places)}  {point.__doc__}")
        if "-l" in sys.argv:
            for path, line, what in places:
                print(f"   {path}:{line}: {what}")


main()
