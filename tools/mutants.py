#!/usr/bin/env python3
"""mutants.py [CRATE ..]: make mutants. Changes one token of a crate's code or of one of its definitions, in a copy of the tree, and asks
the incremental check; what the check takes has survived. By seed: SEED (1), N mutants of each crate's code and as many of its definitions (10),
PART src or specs (both), JOBS at a time (2), SAY=1 to say each.

A mutant of a definition or a constant that its own crate takes is then held to the crates above, and one of a program to its stored output. Survivors that
docs/MUTANTS.md explains are not listed again. The status is 1 where another survived. Nothing here belongs to the gate.
"""
import os
import random
import re
import shutil
import subprocess
import sys
import tempfile
from concurrent.futures import ThreadPoolExecutor
from dataclasses import dataclass
from pathlib import Path
from queue import Queue

ROOT = Path(__file__).resolve().parent.parent
SEED = int(os.environ.get("SEED") or 1)
EACH = int(os.environ.get("N") or 10)
JOBS = int(os.environ.get("JOBS") or 2)
SAY = os.environ.get("SAY")
PARTS = {"src": ["src"], "specs": ["specs"]}.get(os.environ.get("PART", ""), ["src", "specs"])

# A binary operator is set between spaces by the layout; `<'a>` and `&x` are not.
OPERATORS = {"<": "<=", "<=": "<", ">": ">=", ">=": ">", "==": "!=", "!=": "==", "+": "-", "-": "+", "*": "+", "/": "*", "%": "/",
             "&": "|", "|": "&", "&&": "||", "||": "&&", "+=": "-=", "-=": "+="}
WORDS = {"true": "false", "false": "true", "leb": "ltb", "ltb": "leb", "take": "drop", "drop": "take", "not": "",
         "smallest": "largest", "largest": "smallest"}
TOKEN = re.compile(r"""//[^\n]*|--[^\n]*|b"(?:[^"\\]|\\.)*"|b'.'|[A-Za-z_][\w'-]*|\d[\d_]*(?:[ui]\d+|usize)?|[<>=!+\-*/%&|]+|\S""")


# Definitions that are the inputs of worked examples: another input is as good.
INPUTS = {"Examples.antt", "TableExamples.antt", "Clause7.antt", "Samples.antt", "Sums.antt", "Worked.antt"}


@dataclass(frozen=True)
class Mutant:
    crate: str
    file: str  # below the crate
    start: int
    end: int
    new: str
    shared: bool  # a definition or a constant, which the crates above see
    first_line: int  # of the definition that it is in
    last_line: int

    def line_of(self, text):
        """its line, as it stands and as changed; a statement that is left out is followed by nothing"""
        from_, to = text.rfind("\n", 0, self.start) + 1, (text + "\n").find("\n", max(self.start, self.end - 1))
        return text[from_:to].strip(), (text[from_:self.start] + self.new + text[self.end:to]).strip()


def crates():
    """name: the crates of the tree that it uses, in the order of crates.txt"""
    uses = {}
    for line in (ROOT / "crates.txt").read_text().splitlines():
        name, colon, names = line.split("#")[0].partition(":")
        if colon:
            uses[name.strip()] = names.split()
    return uses


def above(crate):
    """the crates that use it, and those that use them, each behind those that it uses"""
    uses, found, left = crates(), [crate], True
    while left:
        left = [name for name in uses if name not in found and any(below in found for below in uses[name])]
        ready = [name for name in left if not any(below in left for below in uses[name])]
        found += ready
    return found[1:]


def closed(text, at, pair="{}"):
    """the place behind the bracket that closes the one at this place"""
    depth = 0
    for i in range(at, len(text)):
        depth += (text[i] == pair[0]) - (text[i] == pair[1])
        if depth == 0:
            return i + 1
    return len(text)


def declared():
    """What can stand for each other: the cases of an enum, the constants of a type, the fields of a struct."""
    cases, constants, fields = {}, {}, {}
    for file in ROOT.glob("crates/*/src/*.rt"):
        text = re.sub(r"//[^\n]*", "", file.read_text())
        for m in re.finditer(r"\b(enum|struct|impl)\b[^{;(]*?(\w+)\s*\{", text):
            body = text[m.end():closed(text, m.end() - 1) - 1]
            if m[1] == "enum":
                cases.setdefault(m[2], set()).update(re.findall(r"^\s+(\w+)\s*[,({]", body, re.M))
            elif m[1] == "struct":
                typed = re.findall(r"^\s+(?:pub(?:\(\w+\))? )?(\w+): (.*),$", body, re.M)
                for name, kind in typed:
                    fields.setdefault(name, set()).update(other for other, same in typed if same == kind)
            else:
                constants.setdefault(m[2], set()).update(re.findall(r"\bconst (\w+):", body))
    return cases, constants, fields


CASES, CONSTANTS, FIELDS = declared()


def numbers(token):
    value, tail = re.fullmatch(r"([\d_]+)(\D.*)?", token).groups()
    value = int(value.replace("_", ""))
    return [f"{n}{tail or ''}" for n in (value + 1, value - 1) if n >= 0]


def changes(text, start, end, known, code):
    """(start, end, new) for each token of this stretch that has another that could stand there; `known` are the names that do"""
    tokens = [m for m in TOKEN.finditer(text, start, end) if not m[0].startswith(("//", "--"))]
    for i, m in enumerate(tokens):
        token, before = m[0], tokens[i - 1][0] if i else ""
        after = tokens[i + 1][0] if i + 1 < len(tokens) else ""
        spaced = text[m.start() - 1:m.start()] == " " and text[m.end():m.end() + 1] == " "
        others = []
        if token[0].isdigit() and before != ".":
            others = numbers(token)
        elif token in OPERATORS and spaced and (code or token in ("&&", "||", "+", "-", "*")):
            others = [OPERATORS[token]]
        elif token in WORDS and (token != "not" or not code):
            others = [WORDS[token]]
        elif token == "!" and code and after not in ("=", ""):
            others = [""]
        elif token.startswith('b"') and len(token) > 4:
            others = [token[:2] + chr(ord(token[2]) ^ 1) + token[3:]]
        elif before == "." and after != "(" and token in FIELDS:
            others = sorted(FIELDS[token] - {token})
        elif code and before == "::" and i > 1:
            owner = tokens[i - 2][0]
            for names in (CASES.get(owner, set()), CONSTANTS.get(owner, set())):
                others += sorted(names - {token}) if token in names else []
        elif not code and any(token in names for names in CASES.values()):
            others = sorted({o for names in CASES.values() if token in names for o in names} - {token})
        elif token in known and before != "." and after not in ("::", ":", "!"):
            others = sorted(o for o in known if o != token and known[o] == known[token])
        for other in others:
            yield m.start(), m.end(), other


def code_mutants(text):
    """of functions' bodies and of constants' values"""
    for m in re.finditer(r"\bconst \w+: [^=]+= ", text):
        yield from ((*c, True, 0, 0) for c in changes(text, m.end(), text.index(";", m.end()), {}, True))
    for m in re.finditer(r"\bfn \w+(?:<[^>]*>)?\(", text):
        at = closed(text, m.end() - 1, "()")
        names = {name: kind for name, kind in re.findall(r"(\w+): ([^,)]+)", text[m.end():at])}
        while True:
            at = text.index("{", at)
            clause = re.search(r"(requires|ensures)\s*$", text[:at])
            if not clause:
                break
            at = closed(text, at)
        end = closed(text, at)
        names |= {name: kind or "" for name, kind in re.findall(r"\blet (?:mut )?([a-z]\w*)(?:: (\w+))?", text[at:end])}
        yield from ((*c, False, 0, 0) for c in changes(text, at + 1, end - 1, names, True))
        # a statement less
        for s in re.finditer(r"^ +(?!let |return |while |if |match |for )[\w.:\[\]]+(?:\([^;{}]*\)| [-+]?= [^;{}]*);\n", text[at:end], re.M):
            yield at + s.start(), at + s.end(), "", False, 0, 0


def spec_mutants(text, types):
    """of definitions: what is an abbreviation or can be unfolded, behind its sign of equality"""
    lines = text.splitlines(keepends=True)
    places = [0]
    for line in lines:
        places.append(places[-1] + len(line))
    head = re.compile(r"( *)(?:abbrev|unfoldable) (?:pub )?(\S+) :")
    n = 0
    while n < len(lines):
        m = head.match(lines[n])
        n += 1
        if not m:
            continue
        indent, name, first = m[1], m[2], n
        while n < len(lines) and lines[n].startswith(indent + " "):
            n += 1
        while n < len(lines) and lines[n].startswith(f"{indent}{name} "):
            clause = n
            n += 1
            while n < len(lines) and lines[n].startswith(indent + " "):
                n += 1
            whole = text[places[clause]:places[n]]
            sign = re.search(r" =(?=\s)", whole)
            if not sign:
                continue
            known = {**types, **bound(whole[len(indent) + len(name):sign.start()], types.get(name, ""))}
            for c in changes(text, places[clause] + sign.end(), places[n], known, False):
                yield *c, True, first, n


def split(text, at):
    """the parts of a text between these signs, outside of brackets"""
    parts, depth, last = [], 0, 0
    for i, sign in enumerate(text):
        depth += (sign in "({") - (sign in ")}")
        if depth == 0 and sign == at:
            parts.append(text[last:i].strip())
            last = i + 1
    return [part for part in parts + [text[last:].strip()] if part]


def bound(patterns, kind):
    """name: its type, for what the patterns before a sign of equality bind; the rest of a list is a list"""
    names = {}
    for pattern, of in zip(split(patterns, " "), split(kind, "→")):
        rest = re.fullmatch(r"\((\w+) ∷ (\w+)\)", pattern)
        if rest:
            names |= {rest[1]: of.removeprefix("List ").strip("()"), rest[2]: of}
        elif re.fullmatch(r"[a-z][\w'-]*", pattern):
            names[pattern] = of
    return names


def stated(files):
    """name: its type, for each definition of a crate; two of one type could stand for each other"""
    types = {}
    for file in files:
        for m in re.finditer(r"^ *(?:abbrev|unfoldable) (?:pub )?(\S+) : (.*(?:\n {4,}.*)*)$", file.read_text(), re.M):
            types[m[1]] = re.sub(r"\s+", " ", m[2])
    return types


def mutants(crate, part):
    files = sorted((ROOT / "crates" / crate / part).glob("*.rt" if part == "src" else "*.antt"))
    types = stated(files) if part == "specs" else {}
    for file in files:
        if file.name in INPUTS:
            continue
        text = file.read_text()
        for change in code_mutants(text) if part == "src" else spec_mutants(text, types):
            yield Mutant(crate, f"{part}/{file.name}", *change)


def explained():
    """the rows of docs/MUTANTS.md: crate and file, the line, the line as changed"""
    table = ROOT / "docs" / "MUTANTS.md"
    rows = (re.findall(r"(?<!\\)`((?:[^`\\]|\\.)*)`", line) for line in table.read_text().splitlines() if line.startswith("|")) if table.exists() else []
    return {tuple(part.replace("\\|", "|") for part in row[:3]) for row in rows if len(row) >= 3}


def run(folder, *words, stdin=subprocess.DEVNULL):
    return subprocess.run(["rt", *words], cwd=folder, text=True, stdin=stdin, stdout=subprocess.PIPE, stderr=subprocess.STDOUT)


def check(tree, crate):
    """the incremental check of a crate, over what it kept in out/ and what others on this machine kept of the crates below"""
    return run(tree / "crates" / crate, "check", "--jobs", "1")


# What rt must-fail calls refused only because a proof file names what is gone.
NAMES = re.compile(r"(note: )?(\./)?proofs/.*(has no field|is not in scope|has no `|was not admitted)")


def verdict(mutant, ended, out):
    """survived, refused, refused by the proof's shape, or no program at all"""
    if ended == 0:
        return "survived"
    if ended != 1 or not re.search(r"^logic=not-proved", out, re.M):
        return "no program"
    places = re.findall(r"^(?:\./)?((?:src|specs|proofs)/\S+?\.\w+):(\d+):\d+: error", out, re.M)
    if mutant.last_line and any(p == mutant.file and mutant.first_line <= int(n) <= mutant.last_line for p, n in places[:1]):
        return "no program"
    told = [line for line in out.splitlines() if re.match(r"note: \S+:\d+:\d+:|\S+:\d+:\d+: error", line)]
    return "shape" if told and all(map(NAMES.match, told)) else "refused"


def survives_above(tree, crate):
    """whether all crates above are proved, in a copy, lowest first: what it leaves must not be taken for the tree's own"""
    copy = Path(tempfile.mkdtemp(dir=tree.parent)) / "tree"
    try:
        shutil.copytree(tree, copy, ignore=shutil.ignore_patterns("out"))
        return all(check(copy, other).returncode == 0 for other in above(crate))
    finally:
        shutil.rmtree(copy.parent, ignore_errors=True)


def prints_the_same(tree, crate):
    """whether a program ends well on its stored input, and prints its stored output"""
    folder = tree / "crates" / crate
    given, stored = ((folder / name).read_bytes() if (folder / name).exists() else b"" for name in ("stdin", "stdout"))
    done = subprocess.run(["rt", "run", "--jobs", "1"], cwd=folder, input=given, stdout=subprocess.PIPE, stderr=subprocess.DEVNULL)
    return done.returncode == 0 and done.stdout == stored


def tried(mutant, tree):
    path = tree / "crates" / mutant.crate / mutant.file
    text = path.read_text()
    path.write_text(text[:mutant.start] + mutant.new + text[mutant.end:])
    try:
        done = check(tree, mutant.crate)
        said = verdict(mutant, done.returncode, done.stdout)
        if said != "survived":
            return said
        if mutant.shared:
            return said if survives_above(tree, mutant.crate) else "refused above"
        if (tree / "crates" / mutant.crate / "src" / "main.rt").exists():
            return said if prints_the_same(tree, mutant.crate) else "another output"
        return said
    finally:
        path.write_text(text)


def made(crate, part):
    """all mutants in the seed's order, no two of one place before each place had one; and how many they are"""
    dice = random.Random(f"{SEED} {crate} {part}")
    all_ = list(mutants(crate, part))
    dice.shuffle(all_)
    seen, first, rest = set(), [], []
    for m in all_:
        (rest if (m.file, m.start) in seen else first).append(m)
        seen.add((m.file, m.start))
    return (first + rest), len(all_)


class Trees:
    """copies of the tree, one for each mutant that is tried at a time"""

    def __init__(self, work):
        self.all, self.free, self.pool = [work / str(job) for job in range(JOBS)], Queue(), ThreadPoolExecutor(JOBS)
        for tree in self.all:
            shutil.copytree(ROOT, tree, ignore=shutil.ignore_patterns(".git", "must-fail", "out", "target"))
            self.free.put(tree)

    def ready(self, crate):
        for done in self.pool.map(lambda tree: check(tree, crate), self.all):
            if done.returncode:
                sys.exit(f"mutants: {crate} is not proved as it stands:\n{done.stdout[-2000:]}")

    def try_one(self, mutant):
        tree = self.free.get()
        try:
            return mutant, tried(mutant, tree)
        finally:
            self.free.put(tree)

    def try_some(self, waiting):
        """as many as were asked for; what is no program is none of them"""
        good, bad = 0, 0
        while waiting and good < EACH and bad < 8 * EACH:
            batch, waiting = waiting[:EACH - good], waiting[EACH - good:]
            for mutant, said in self.pool.map(self.try_one, batch):
                bad += said == "no program"
                good += said != "no program"
                yield mutant, said


def try_part(trees, crate, part, known):
    """the rows of those that survived unexplained"""
    waiting, there = made(crate, part)
    count, listed = {}, []
    for mutant, said in trees.try_some(waiting):
        row = (f"{crate}/{mutant.file}", *mutant.line_of((ROOT / "crates" / crate / mutant.file).read_text()))
        if said == "survived" and row in known:
            said = "explained"
        elif said == "survived":
            listed.append(row)
        count[said] = count.get(said, 0) + 1
        if said not in ("refused", "no program") or SAY:
            print(f"mutants: %s: {said}: %s  =>  %s" % row, flush=True)
    tried_ = sum(n for said, n in count.items() if said != "no program")
    print(f"mutants: {crate} {part}: {tried_} of {there}: " + (", ".join(f"{n} {said}" for said, n in sorted(count.items())) or "none"), flush=True)
    return listed


def main():
    uses = crates()
    asked = sys.argv[1:] or list(uses)
    for crate in asked:
        if crate not in uses:
            sys.exit(f"mutants: there is no crate {crate}")
    known, listed = explained(), []
    work = Path(tempfile.mkdtemp(prefix="mutants-"))
    try:
        trees = Trees(work)
        for crate in asked:
            trees.ready(crate)
            for part in PARTS:
                listed += try_part(trees, crate, part, known)
    finally:
        shutil.rmtree(work, ignore_errors=True)
    for row in listed:
        print("mutants: survived: %s\n    %s\n    %s" % row)
    print(f"mutants: {len(listed)} survived that docs/MUTANTS.md doesn't explain")
    sys.exit(1 if listed else 0)


main()
