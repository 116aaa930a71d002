#!/usr/bin/env python3
"""List the definitions and lemmas of specs/ and proofs/ that nothing else in the repository cites."""
import pathlib
import re
import sys

ROOT = pathlib.Path(__file__).resolve().parent.parent
NAME = re.compile(r"^( *)(?:abbrev )?pub (?:record |data )?([^\s:({]+)", re.M)
WORD = r"[\w'\-◌]"


def texts():
    for path in sorted(ROOT.glob("crates/*/**/*")):
        if path.suffix in (".antt", ".rt") and "out" not in path.parts:
            yield path, path.read_text()


def main():
    files = dict(texts())
    unused = []
    for path, text in files.items():
        if path.suffix != ".antt" or path.name in ("Answers.antt", "Invariants.antt", "Lib.antt"):
            continue
        for margin, name in NAME.findall(text):
            word = re.compile(rf"(?<!{WORD}){re.escape(name)}(?!{WORD})")
            inside = [line for line in text.splitlines() if word.search(line)]
            own = [line for line in inside if re.match(rf"{margin}(abbrev )?(pub )?(record |data )?{re.escape(name)}(?!{WORD})", line)]
            elsewhere = any(word.search(other) for where, other in files.items() if where != path)
            if not elsewhere and len(inside) == len(own):
                unused.append(f"{path.relative_to(ROOT)}: {name}")
    print("\n".join(unused))
    return 1 if unused else 0


if __name__ == "__main__":
    sys.exit(main())
