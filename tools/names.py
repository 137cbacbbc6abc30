#!/usr/bin/env python3
"""Respells the names of definitions, lemmas, fields and modules: words in snake case, modules in camel case.

Run it once at the top of the repository, after the toolchain's own script has run over it; a second run changes nothing. It changes
the texts of crates/ (.rt, .antt and .edit files) and, in the pages that name definitions, words between backquotes. It proves nothing.
"""

import os
import re
import subprocess

# A word in camel case that begins with a small letter, as it stands alone or joined to others by a dash.
CAMEL = re.compile(r"(?<![A-Za-z0-9_'])[a-z][a-z0-9_]+[A-Z][A-Za-z0-9_']*")

# Names that would fall together with another of their module, and names that the library has under another word.
OTHERS = {"startFits": "start_is_fit", "startTest": "test_of_start", "blockStart": "start_of_block", "getD": "get_or"}
PHI_0 = re.compile(r"(?<![A-Za-z0-9_'«])phi0(?![A-Za-z0-9_'])")

# Folders of specs/ and proofs/ that stood in small letters.
MODULES = {"text": "Text", "degrees": "Degrees", "reader": "Reader", "writer": "Writer", "pairing": "Pairing", "run_text": "RunText", "printing": "Printing"}
OWNERS = ("block_sheets", "code_sheets", "decoding", "program_texts")
PATH = re.compile(r"(Rattle\.(?:%s)\.(?:specs|proofs)\.)(%s)(?![A-Za-z0-9_'])" % ("|".join(OWNERS), "|".join(MODULES)))
DECLARED = re.compile(r"(?m)^((?:pub )?mod )(%s)$" % "|".join(MODULES))

# A name of several words that are joined by dashes, where it is declared: at the head of a line or by `let`. Names of goals are the
# toolchain's and stay.
DASHED = r"[a-z][a-z0-9_']*(?:-[a-z0-9_']+)+"
HEAD = re.compile(r"(?m)^ *(?:abbrev |unfoldable )?(?:pub )?(?:abbrev |unfoldable )?(%s) :(?!\s*(?:goal|tie|lts)\.)" % DASHED)
LET = re.compile(r"\blet (%s)(?= [:=])" % DASHED)
TOKEN = re.compile(r"((?<![\w'.])[A-Z][\w']*\.|\.?)([^\s(){}.;,@\"«»\[\]`←|]+)")

PAGES = ("README.md", "docs/PROMISES.md", "docs/DECISIONS.md", "compare/README.md")


def snake(word):
    if word in OTHERS:
        return OTHERS[word]
    return re.sub(r"([a-z0-9])([A-Z])", r"\1_\2", word).lower()


def respelled(text):
    text = CAMEL.sub(lambda m: snake(m.group(0)), text)
    return PATH.sub(lambda m: m.group(1) + MODULES[m.group(2)], PHI_0.sub("phi_0", text))


def fields_of(text):
    """The dashed names of the fields of the records that a text declares."""
    found, depth = set(), None
    for line in text.split("\n"):
        if not line.strip():
            continue
        indent = len(line) - len(line.lstrip())
        if depth is not None and indent <= depth:
            depth = None
        if re.match(r" *(?:pub )?record ", line):
            depth = indent
        elif depth is not None:
            found |= set(re.findall(r"^ *(?:pub )?(%s) :" % DASHED, line))
    return found


def undashed(texts):
    """How each dashed name that the texts declare is spelled, and which of them are fields. One that would fall together with another
    name gets `_lem`, as a lemma that would have its definition's name."""
    declared, fields, words = set(), set(), set()
    for text in texts:
        declared |= set(HEAD.findall(text)) | set(LET.findall(text))
        fields |= fields_of(text)
        words |= {m.group(2) for m in TOKEN.finditer(text)}
    plain = {name: name.replace("-", "_") for name in declared}
    return {name: word + "_lem" if word in words else word for name, word in plain.items()}, fields


def joined(text, names, fields):
    def one(m):
        dot, word = m.groups()
        if word in names and (dot != "." or word in fields):
            return dot + names[word]
        return m.group(0)

    return TOKEN.sub(one, text)


def write(path, text):
    with open(path, encoding="utf-8") as f:
        if f.read() == text:
            return
    with open(path, "w", encoding="utf-8") as f:
        f.write(text)


def move(old, new):
    if os.path.exists(old):
        subprocess.run(["git", "mv", old, new], check=True)


def main():
    for owner in OWNERS:
        for kind in ("specs", "proofs"):
            for old, new in MODULES.items():
                root = os.path.join("crates", owner, kind)
                move(os.path.join(root, old + ".antt"), os.path.join(root, new + ".antt"))
                move(os.path.join(root, old), os.path.join(root, new))
    for folder, folders, files in os.walk("crates"):
        folders[:] = [d for d in folders if d != "out"]
        for name in files:
            path = os.path.join(folder, name)
            if not name.endswith((".rt", ".antt", ".edit")):
                continue
            with open(path, encoding="utf-8") as f:
                text = respelled(f.read())
            if name == "Lib.antt" and path.split(os.sep)[1] in OWNERS:
                text = DECLARED.sub(lambda m: m.group(1) + MODULES[m.group(2)], text)
            if name.endswith(".edit"):
                text = re.sub(r"(?m)^(file: (?:specs|proofs)/)(%s)/" % "|".join(MODULES), lambda m: m.group(1) + MODULES[m.group(2)] + "/", text)
            write(path, text)
    paths = [os.path.join(d, f) for d, _, fs in os.walk("crates") if "out" not in d.split(os.sep) for f in sorted(fs) if f.endswith((".rt", ".antt", ".edit"))]
    texts = {}
    for path in paths:
        with open(path, encoding="utf-8") as f:
            texts[path] = f.read()
    names, fields = undashed([t for p, t in texts.items() if p.endswith(".antt")])
    for path, text in texts.items():
        write(path, joined(text, names, fields))
    for path in PAGES:
        if os.path.exists(path):
            with open(path, encoding="utf-8") as f:
                text = f.read()
            write(path, re.sub(r"`[^`\n]*`", lambda m: joined(respelled(m.group(0)), names, fields), text))


if __name__ == "__main__":
    main()
