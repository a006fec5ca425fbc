#!/usr/bin/env python3
"""Brings the names that this repository defines in specs/ and proofs/ to today's spelling: words in snake case (`codeText` to
`code_text`, also as a part of a lemma's name between dashes), types in camel case (`Set-as` to `SetAs`). It renames in .antt files,
in the contracts, imports and comments of .rt files, in the edits and in the pages, and nowhere in strings or in code: no name of a
function, a field or a variable of src/ has a capital inside. It says which names fall together, in which file.

usage: tools/respell.py [FOLDER]     at the top of a checkout, once, after the kit's own script"""

import os
import re
import sys

TOKEN = re.compile(r"[A-Za-z_ℕ][A-Za-z0-9_'ℕ]*(?:-[A-Za-z0-9_'ℕ]+)*")
CAMEL = re.compile(r"[a-z][A-Za-z0-9_']*[A-Z][A-Za-z0-9_']*$")
TYPES = {"Set-as": "SetAs", "Under-way": "UnderWay", "Some-over": "SomeOver"}
LEMMAS = {"asked_in", "is_among", "numbers_of", "other_name", "read_named"}  # a lemma that would have its function's name
LOCAL = {  # names inside one file that would fall together with a word that it uses
    "board/proofs/Sought.antt": {"goes_on": "goes_on_lem"},
    "builder/proofs/Over.antt": {"laid_out": "laid_as"},
    "evidence/proofs/Rows.antt": {"laid_out": "laid_as"},
    "rows/proofs/Laying.antt": {"laid_out": "laid_as"},
}
STRING = re.compile(r'b?"(?:[^"\\]|\\.)*"')


def snake(part):
    part = re.sub(r"(?<=[a-z0-9])([A-Z])", r"_\1", part)
    return part.lower()


def respelled(token, known):
    if token in TYPES:
        return TYPES[token]
    parts = token.split("-")
    return "-".join(snake(p) if CAMEL.match(p) and p in known else p for p in parts)


def files(root):
    for folder, dirs, names in os.walk(os.path.join(root, "crates")):
        dirs[:] = sorted(d for d in dirs if d not in ("out", "must-fail"))
        for name in sorted(names):
            if name.endswith((".rt", ".antt")):
                yield os.path.join(folder, name)


def others(root):
    """The pages and the edits, which name what specs/ and proofs/ define."""
    pages = [os.path.join(root, "README.md"), *(os.path.join(folder, n) for folder, _, names in os.walk(os.path.join(root, "docs")) for n in names if n.endswith(".md"))]
    edits = [os.path.join(folder, n) for folder, _, names in os.walk(os.path.join(root, "crates")) if folder.endswith("must-fail") for n in names if n.endswith(".edit")]
    return sorted(pages + edits)


def defined(texts):
    """The words with a capital inside that some file of specs/ or proofs/ declares: in a signature, a field or a constructor."""
    found = set()
    for path, text in texts.items():
        if not path.endswith(".antt"):
            continue
        for line in text.splitlines():
            if line.lstrip().startswith(("--", "use ", "unfolding ", "mod ", "pub mod ")):
                continue
            m = re.match(r"^\s*(?:(?:abbrev|unfoldable|pub|record|data)\s+)*(" + TOKEN.pattern + r")(?:\s+[({].*)?\s+:(?:\s|$)", line)
            if m:
                found.update(p for p in m.group(1).split("-") if CAMEL.match(p))
    return found


def apart(path, text, known):
    """Names that would fall together get another one first; what is left of them is told."""
    other = {name: name + "_lem" for name in LEMMAS}
    other.update(next((names for end, names in LOCAL.items() if path.endswith(end)), {}))

    def renamed(m):
        a, b = m.span()
        of_a_path = text[a - 1 : a] == "." or text[b : b + 1] == "."
        return m.group() if of_a_path else other.get(m.group(), m.group())

    text = TOKEN.sub(renamed, text)
    words = {m.group() for m in TOKEN.finditer(text) if text[m.start() - 1] != "." and text[m.end() : m.end() + 1] != "."}
    for word in sorted(words):
        if respelled(word, known) != word and respelled(word, known) in words:
            print(f"falls together: {word} and {respelled(word, known)} in {path}")
    return text


def main(argv):
    root = argv[0] if argv else "."
    texts = {}
    for path in files(root):
        with open(path, encoding="utf-8") as f:
            texts[path] = f.read()
    known = defined(texts)
    for path in others(root):
        with open(path, encoding="utf-8") as f:
            texts[path] = f.read()
    for path, text in texts.items():
        if path.endswith(".antt"):
            text = apart(path, text, known)
        out, last = [], 0
        if path.endswith((".rt", ".edit")):
            for m in STRING.finditer(text):
                out += [TOKEN.sub(lambda t: respelled(t.group(), known), text[last : m.start()]), m.group()]
                last = m.end()
        out.append(TOKEN.sub(lambda t: respelled(t.group(), known), text[last:]))
        made = "".join(out)
        if made != text:
            with open(path, "w", encoding="utf-8") as f:
                f.write(made)
    print(f"{len(known)} words respelled")
    return 0


if __name__ == "__main__":
    raise SystemExit(main(sys.argv[1:]))
