#!/usr/bin/env python3
"""Respells the repository's own definitions, lemmas, fields and locals of .antt files from a-b to a_b.

usage: python3 tools/snake_names.py        at the top of the repository, once, after the kit's port.py

Words of specs/*.antt and of the lemma files of proofs/ are turned wherever they stand; words of the library, and names that the
toolchain makes (in proofs/F/), keep their dashes. Comments are turned only where they name such a word in backquotes.
It prints the names that another name of the same file has already."""
import os
import re

NAME = re.compile(r"(?<![\w'′◌-])(?<!ᴰ\.)[A-Za-z][\w'′]*(?:-[\w'′]+)+(?![◌-])")
TOP = re.compile(r"(?m)^[ ]*(?:(?:pub|abbrev|unfoldable|irreducible|inline|instance|data|record)\s+)*([A-Za-z][\w'′]*(?:-[\w'′]+)+)\s*(?:\{[^}]*\}\s*|\([^)]*\)\s*)*:(?!:)")
USE = re.compile(r"\buse ([\w.]+)\.\{([^}]*)\}")


def files():
    for folder, dirs, names in os.walk("crates"):
        dirs[:] = sorted(d for d in dirs if d != "out")
        for name in sorted(names):
            if name.endswith((".antt", ".rt", ".edit")):
                yield os.path.join(folder, name)


def is_lemma_file(path):
    parts = path.split(os.sep)
    return path.endswith(".antt") and (parts[2] == "specs" or len(parts) == 4)


def read(path):
    with open(path, encoding="utf-8") as f:
        return f.read()


def code_and_comments(path, text):
    """The text in parts: (is it code, the part)."""
    if path.endswith(".edit"):
        return [(True, text)]
    mark = (r"--(?=\s|$).*" if path.endswith(".antt") else r"//.*") + r"|\"(?:[^\"\\]|\\.)*\""
    out, at = [], 0
    for m in re.finditer(mark, text):
        out += [(True, text[at : m.start()]), (False, m[0])]
        at = m.end()
    return out + [(True, text[at:])]


def main():
    crates = set(os.listdir("crates"))
    texts = {p: read(p) for p in files()}
    library, own = set(), set()
    for p, t in texts.items():
        code = "".join(x for is_code, x in code_and_comments(p, t) if is_code)
        for m in USE.finditer(code):
            at = m[1].split(".")
            if not (at[0] == "Rattle" and at[1] in crates):
                library |= {w for w in re.split(r"[,\s]+", m[2]) if "-" in w}
        if is_lemma_file(p):
            own |= {m[1] for m in TOP.finditer(code)}
    own -= library

    def snake(word):
        return word.replace("-", "_")

    for p, t in texts.items():
        lemma = is_lemma_file(p)

        def turn(m):
            word = m[0]
            if word in library or not (word in own or lemma):
                return word
            return snake(word)

        out = "".join(NAME.sub(turn, x) if is_code else re.sub(r"`[^`]*`", lambda q: NAME.sub(turn, q[0]), x) for is_code, x in code_and_comments(p, t))
        out = out.replace("′", "'") if p.endswith(".antt") else out
        if out != t:
            words = {m[0] for m in NAME.finditer(t)}
            before = set(re.findall(r"[A-Za-z][\w']*", "".join(x for is_code, x in code_and_comments(p, t) if is_code)))
            for w in sorted(words):
                if (w in own or lemma) and w not in library and snake(w) in before and not p.endswith(".edit"):
                    print(f"{p}: {w} falls together with {snake(w)}")
            with open(p, "w", encoding="utf-8") as f:
                f.write(out)


main()
