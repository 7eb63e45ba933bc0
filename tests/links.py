#!/usr/bin/env python3
"""Follows every link of the documents to a file or a heading of this repository.

usage: tests/links.py

A page of documents that a script or a source names (`docs/NAME`) has to be there too.
The last line is 'N passed, M failed'.
"""
import pathlib
import re
import sys

ROOT = pathlib.Path(__file__).resolve().parent.parent
LINK = re.compile(r"\]\(([^)\s]+)\)")
NAMED = re.compile(r"\bdocs/[\w/]+\.(?:md|1)\b")
CODE = re.compile(r"^```.*?^```|^    [^\n]*$", re.M | re.S)


def documents():
    return sorted([*ROOT.glob("*.md"), *ROOT.glob("docs/**/*.md")])


def headings(text):
    """The anchors of a page's headings."""
    titles = re.findall(r"^#+ (.*)", CODE.sub("", text), re.M)
    return {re.sub(r"[^\w\- ]", "", re.sub(r"\]\([^)]*\)", "", it)).strip().lower().replace(" ", "-") for it in titles}


def broken(page):
    """The links of a page that lead nowhere."""
    for link in LINK.findall(CODE.sub("", page.read_text())):
        if re.match(r"\w+:", link):
            continue
        path, _, anchor = link.partition("#")
        target = (page.parent / path).resolve() if path else page
        if not target.exists():
            yield link
        elif anchor and target.suffix == ".md" and anchor not in headings(target.read_text()):
            yield link


def others():
    """The texts that may name a page: scripts, sources and definitions."""
    folders = ("tests", "release", "bench", "tools", "wrong_bodies", ".ci", "completion")
    found = [it for folder in folders for it in (ROOT / folder).rglob("*") if it.is_file()]
    found += [it for kind in ("rt", "antt") for it in (ROOT / "crates").glob(f"*/[sp]*/**/*.{kind}")]
    found += [ROOT / "saber", *documents(), *ROOT.glob("examples/*/commands")]
    return [it for it in found if it.stat().st_size < 1000000 and "__pycache__" not in it.parts and it.suffix not in (".o", ".pyc")]


def main():
    if len(sys.argv) != 1:
        sys.exit(__doc__)
    wrong = [f"{page.relative_to(ROOT)}: {link}" for page in documents() for link in broken(page)]
    for file in others():
        names = set(NAMED.findall(file.read_text(errors="replace")))
        wrong += [f"{file.relative_to(ROOT)}: {name}" for name in sorted(names) if not (ROOT / name).exists()]
    for it in wrong:
        print(f"leads nowhere: {it}")
    print(f"{len(documents())} documents")
    print(f"{0 if wrong else 1} passed, {len(wrong)} failed")
    return 1 if wrong else 0


if __name__ == "__main__":
    sys.exit(main())
