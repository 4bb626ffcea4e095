#!/usr/bin/env python3
"""Programs in which one token or two were changed: what `ssadump` accepts, against what another checker of Go accepts.

usage: mutated_programs.py BINARY CHECKER COUNT SEED FILE..

CHECKER takes names of files and prints a line for each: the name, a tab, and "ok" or its first error. Told apart from
faults are the choices that docs/DECISIONS.md names: a program has a `main` (O2), and `print` takes booleans, integers and
strings alone (E17). Ends with status 1 where another difference is found, and prints each with its program.
"""
import os
import random
import re
import subprocess
import sys
import tempfile

TOKEN = re.compile(
    r"""//[^\n]*|/\*.*?\*/|`[^`]*`|"(?:\\.|[^"\\\n])*"|'(?:\\.|[^'\\\n])+'|[A-Za-z_]\w*|\d\w*"""
    r"""|<<=|>>=|&\^=|\.\.\.|&&|\|\||<-|\+\+|--|[=!<>:+\-*/%&|^]=|<<|>>|&\^|\S""",
    re.S,
)
NAME = re.compile(r"[A-Za-z_]\w*$")
OPERATORS = "+ - * / % & | ^ &^ << >> == != < <= > >= && ||".split()
TYPES = "int string bool byte int64 uint rune error []int *int interface{} map[string]int func() struct{}".split() + ["chan int"]
BUILT_INS = "len cap append make new copy delete panic print println close recover min max clear".split()
VALUES = ["nil", "true", "false", "0", "1", "-1", "300", "'a'", '"s"', "iota", "1 << 70"]
OTHERS = ["= := += -= <<= &^=", "++ --", "break continue return fallthrough goto", "var const type func", "if for switch select go defer"]
KINDS = [OPERATORS, TYPES, BUILT_INS, VALUES] + [words.split() for words in OTHERS]


def instead(word, words, chance):
    """Another token for this one, often of the same kind."""
    drawn = chance.random()
    kinds = [kind for kind in KINDS if word in kind]
    if drawn < 0.08:
        return ""
    if drawn < 0.14:
        return f"{word} {word}"
    if drawn < 0.22:
        return chance.choice(words)
    if kinds and drawn < 0.75:
        return chance.choice(kinds[0])
    if NAME.match(word):
        return chance.choice([w for w in words if NAME.match(w)] if drawn < 0.8 else TYPES + VALUES)
    if word[0].isdigit() or word[0] in "\"'`":
        return chance.choice(VALUES)
    return chance.choice(chance.choice(KINDS))


def mutated(text, chance):
    places = [m for m in TOKEN.finditer(text) if not m.group().startswith(("//", "/*"))]
    place = chance.choice(places)
    new = instead(place.group(), [m.group() for m in places], chance)
    return text[: place.start()] + new + text[place.end() :]


def verdicts(checker, names, folder):
    said = {}
    for start in range(0, len(names), 200):
        told = subprocess.run([checker, *names[start : start + 200]], cwd=folder, capture_output=True, text=True)
        said.update(line.split("\t", 1) for line in told.stdout.splitlines() if "\t" in line)
    return said


def is_chosen(ours, theirs, lines):
    """Whether these two verdicts differ by a choice alone."""
    if ours.endswith("(O2)"):
        return theirs == "ok"
    place = re.match(r"[^:]*:(\d+):\d+: .*\(E17\)$", ours)
    return theirs == "ok" and place is not None and "print" in lines[int(place.group(1)) - 1]


def main():
    binary, checker = (os.path.abspath(path) for path in sys.argv[1:3])
    count, chance = int(sys.argv[3]), random.Random(int(sys.argv[4]))
    texts = [open(path, encoding="utf-8").read() for path in sys.argv[5:]]
    accepted = chosen = differ = 0
    with tempfile.TemporaryDirectory() as folder:
        programs = {}
        for number in range(count):
            text = mutated(chance.choice(texts), chance)
            programs[f"m{number}.go"] = mutated(text, chance) if chance.random() < 0.25 else text
        for name, text in programs.items():
            with open(os.path.join(folder, name), "w", encoding="utf-8") as file:
                file.write(text)
        said = verdicts(checker, list(programs), folder)
        for name, text in programs.items():
            run = subprocess.run([binary, name], cwd=folder, capture_output=True, text=True)
            ours, theirs = "ok" if run.returncode == 0 else run.stderr.strip(), said.get(name, "nothing")
            accepted += ours == "ok"
            if run.returncode in (0, 1) and (ours == "ok") == (theirs == "ok"):
                continue
            if run.returncode == 1 and is_chosen(ours, theirs, text.splitlines()):
                chosen += 1
                continue
            differ += 1
            print(f"{name}: here {ours}; there {theirs}\n{text}")
    print(f"{count} programs, {accepted} accepted; {chosen} differ by choice, {differ} besides")
    return 1 if differ else 0


sys.exit(main())
