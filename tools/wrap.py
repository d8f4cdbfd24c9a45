#!/usr/bin/env python3
"""wrap.py: wraps the lines of README.md and docs/*.md alike, but for docs/PORT.md and docs/DESIGN-PASS.md, which begin with lines of one commit each.
wrap.py --check: says which are not, with status 1."""
import re
import sys
import textwrap
from pathlib import Path

WIDTH = 160
ITEM = re.compile(r"(\s*)([-*]|\d+\.) ")


def wrapped(text):
    out, words, first, later, fenced = [], [], "", "", False

    def flush():
        nonlocal words, first, later
        if words:
            out.extend(textwrap.wrap(" ".join(words), WIDTH, initial_indent=first, subsequent_indent=later, break_long_words=False, break_on_hyphens=False))
        words, first, later = [], "", ""

    for line in text.splitlines():
        item = ITEM.match(line)
        if line.startswith("```"):
            fenced = not fenced
        if fenced or line.startswith(("```", "#", "|")) or (line.startswith("    ") and not words) or not line.strip():
            flush()
            out.append(line)
        elif item:
            flush()
            first, later, words = item[0], " " * len(item[0]), [line[len(item[0]):].strip()]
        else:
            words.append(line.strip())
    flush()
    return "\n".join(out) + "\n"


def main():
    root = Path(__file__).resolve().parent.parent
    bad = 0
    for file in [root / "README.md", *sorted((root / "docs").glob("*.md"))]:
        text = file.read_text()
        if file.name in ("PORT.md", "DESIGN-PASS.md"):
            continue
        if wrapped(text) == text:
            continue
        if "--check" in sys.argv:
            print(f"wrap: {file.relative_to(root)} is not wrapped as tools/wrap.py does it")
            bad = 1
        else:
            file.write_text(wrapped(text))
    sys.exit(bad)


main()
