#!/usr/bin/env python3
"""Places in crates/*/src that docs/DESIGN-PASS.md counts, by its points; run at the top: python3 tools/places.py [POINT].

1 types     enums whose variants are a value and nothing or a value and a refusal, and lines that name a variant of one
2 twins     functions of three lines or more with the same shape, names and numbers aside
3 loops     `while` and `loop`
4 hand      a choice of two values by a comparison, and a `match` whose arms are only constants
5 facts     clauses that three functions or more have, and parameters that three functions or more take together
6 buffers   lists of indices or of bytes beside a length, fixed arrays
7 switches  parameters or fields that choose a step
8 proofs    `let` lines that an Answers.antt has three times or more
"""
import collections
import glob
import re
import sys

SOURCES = sorted(glob.glob("crates/*/src/*.rt"))


def text(path):
    with open(path, encoding="utf-8") as file:
        return file.read()


def show(kind, places):
    print(f"{kind}: {len(places)}")
    for place in places:
        print("  " + place)


def functions():
    """Each function: its file, name, parameters, clauses and body."""
    for path in SOURCES:
        for found in re.finditer(
            r"^( *)(?:pub )?(?:extern \"C\" )?fn (\w+)(?:<[^>]*>)?\((.*?)\)(?: -> [^\n{]*)?\n?(.*?)^\1\{\n(.*?)^\1\}", text(path), re.M | re.S
        ):
            yield path, found[2], found[3], found[4], found[5]


def enums():
    for path in SOURCES:
        for found in re.finditer(r"^pub enum (\w+) \{\n(.*?)^\}", text(path), re.M | re.S):
            variants = re.findall(r"^    (\w+)(.*)$", found[2], re.M)
            yield path, found[1], [name for name, _ in variants]


def types():
    nothing = {"Other", "Missing", "Refused", "Admitted"}
    own = [(path, name, names) for path, name, names in enums() if len(names) == 2 and nothing & set(names)]
    show("1 enums like Option or Result", [f"{path}: {name}" for path, name, _ in own])
    words = "|".join(sorted({f"{name}::{variant}" for _, name, names in own for variant in names}))
    lines = []
    if words:
        for path in SOURCES:
            for number, line in enumerate(text(path).split("\n"), 1):
                if re.search(rf"\b(?:{words})\b", line) and not re.match(r"\s*(?:ghost )?use ", line):
                    lines.append(f"{path}:{number}")
    print(f"1 lines that name a variant of one: {len(lines)}")


def shape(body):
    names = {}

    def rename(found):
        word = found[0]
        if word in {"let", "mut", "if", "else", "while", "for", "in", "return", "match", "loop", "as", "true", "false"}:
            return word
        return names.setdefault(word, f"x{len(names)}")

    body = re.sub(r"//.*", "", body)
    body = re.sub(r"b?'[^']*'|b?\"[^\"]*\"|\b\d[\w]*\b", "0", body)
    return re.sub(r"\s+", " ", re.sub(r"[A-Za-z_]\w*", rename, body))


def twins():
    groups = collections.defaultdict(list)
    for path, name, _, _, body in functions():
        if body.count("\n") >= 3 and not path.startswith("crates/host_c/"):
            groups[shape(body)].append(f"{path}: {name}")
    show("2 functions of one shape", [" = ".join(group) for group in groups.values() if len(group) > 1])


def loops():
    found = []
    for path in SOURCES:
        for number, line in enumerate(text(path).split("\n"), 1):
            if re.match(r"\s*(?:while|loop)\b", line):
                found.append(f"{path}:{number}: {line.strip()}")
    show("3 while and loop", found)


def hand():
    found = []
    for path, name, _, _, body in functions():
        lines = [line.strip() for line in body.strip().split("\n")]
        if re.search(r"^if (\w+(?:\.\w+)?) < (\w+(?:\.\w+)?) \{ (?:\1|\2|0) \} else \{ (?:\1|\2|\1 - \2) \}$", body.strip(), re.M):
            found.append(f"{path}: {name}: a choice by a comparison")
        arms = [line for line in lines if "=>" in line]
        if arms and all(re.search(r"=> (?:\d+|true|false|\w+::\w+),$", line) for line in arms) and lines[0].startswith("match"):
            found.append(f"{path}: {name}: a match to constants")
    show("4 by hand", found)


def facts():
    clauses = collections.defaultdict(set)
    together = collections.defaultdict(set)
    for path, name, parameters, text_, _ in functions():
        if path.startswith("crates/host_c/"):
            continue
        for clause in re.findall(r"^\s*requires(?: \w+)? \{ (.*) \}$", text_, re.M):
            for fact in clause.split(" × "):
                clauses[fact.strip("()")].add(f"{path}: {name}")
        names = [part.split(":")[0].strip() for part in parameters.split(",") if ":" in part]
        for group in GROUPS:
            if set(group) <= set(names):
                together[", ".join(group)].add(f"{path}: {name}")
    show("5 facts of three functions or more", [f"{len(who)} {fact}" for fact, who in sorted(clauses.items(), key=lambda x: -len(x[1])) if len(who) > 2])
    show("5 parameters that travel together", [f"{len(who)} {group}" for group, who in together.items() if len(who) > 2])


GROUPS = [
    ("n", "starts", "columns"),
    ("variable_messages", "check_messages", "sums", "bits"),
    ("levels", "variable_messages", "check_messages", "sums", "bits"),
    ("values", "asked"),
    ("first_values", "second_values"),
    ("size", "rows", "columns"),
    ("most", "phi_s", "phi_a", "phi_0"),
    ("positions", "given"),
    ("kind", "gain", "variance"),
    ("work", "n", "m"),
]


def buffers():
    found = []
    for path in SOURCES:
        for number, line in enumerate(text(path).split("\n"), 1):
            if re.search(r"let mut \w+ = \[0\w*; ", line):
                found.append(f"{path}:{number}: {line.strip()}")
    show("6 fixed arrays", found)


def switches():
    found = []
    for path, name, parameters, _, _ in functions():
        for part in parameters.split(","):
            if re.search(r": bool$", part.strip()):
                found.append(f"{path}: {name}: {part.strip()}")
    show("7 switches", found)


def proofs():
    found = []
    answers = 0
    for path in sorted(glob.glob("crates/*/proofs/**/Answers.antt", recursive=True)):
        content = text(path)
        answers += len(re.findall(r"^pub ", content, re.M))
        lines = collections.Counter(line.strip() for line in content.split("\n") if line.strip().startswith("let "))
        again = [line for line, times in lines.items() if times > 2]
        if again:
            found.append(f"{path}: {len(again)}")
    show("8 answers files with a let line three times", found)
    print(f"8 answers: {answers}")


POINTS = {"1": types, "2": twins, "3": loops, "4": hand, "5": facts, "6": buffers, "7": switches, "8": proofs}

for point in sys.argv[1:] or POINTS:
    POINTS[point]()
