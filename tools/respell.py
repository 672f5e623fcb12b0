#!/usr/bin/env python3
"""Brings the names of definitions, lemmas and fields to snake case, in every crate, once, behind the kit's port.py.

usage: python3 tools/respell.py        at the top of the repository

A name that is declared in a file of specs/ or in a file of lemmas (proofs/*.antt) is respelled: fssUtf becomes fss_utf. A dash stays where
it joins two names of definitions, of ours or of the library's lists and numbers, as in length-append; elsewhere it becomes an underscore,
as in writing_begin. A lemma that would have a definition's name gets _lem. Functions of src/, exported names and strings are not touched.
Wrong versions (must-fail/*.edit) are respelled with the files that they change, and what port.py did to those is done to them too.
"""
import collections
import glob
import re
import sys

TOKEN = re.compile(r"[A-Za-z0-9_'₀-₉ℕℤ-]+")
DECLARED = re.compile(r"^( *)((?:(?:unfoldable|abbrev|pub) )*)(data |record |ruleset |module )?([^\s:(){}.]+)(?: :( |$)| ([({].*))")
# names of the older library that stand in wrong versions, and today's
LIBRARY_NAMES = {"getD": "get_or"}
ORIGINAL = {}
# the last commit in the older spelling
LANDED = "a8d86ee334798242b293d618cc6c82a080d2739a"
# words of the library's lists, tests and numbers, as its lemmas name them
LIBRARY = set("length append take drop map cons nil suc zero add mul sub le lt set get_or cond not eqb leb ltb and or reverse sym".split())


def declared(paths):
    names = collections.OrderedDict()
    for p in sorted(paths):
        for line in open(p, encoding="utf-8"):
            m = DECLARED.match(line)
            if m and (m.group(5) is not None or m.group(3)):
                names.setdefault(m.group(4), p)
    return names


def snake(name):
    return re.sub(r"(?<=[a-z0-9])([A-Z])", lambda m: "_" + m.group(1).lower(), name) if re.match(r"[a-z]", name) else name


def spelled(name, words):
    parts = [snake(p) for p in name.split("-")]
    out = parts[0]
    for before, after in zip(parts, parts[1:]):
        out += ("-" if before in words and after in words else "_") + after
    return out


# What port.py renamed, as it can be read off a definition's head: the old head's name beside the new one's.
def ported(landed, now):
    heads = lambda text: [m.group(4) for m in map(DECLARED.match, text.splitlines()) if m and (m.group(5) is not None or m.group(3))]
    a, b = heads(landed), heads(now)
    return {x: y for x, y in zip(a, b) if x != y} if len(a) == len(b) else {}


def edits(names):
    import subprocess

    git = lambda path: subprocess.run(["git", "show", LANDED + ":" + path], capture_output=True, text=True).stdout
    every = sorted(glob.glob("crates/*/must-fail/*.edit"))
    renamed = {}
    for p in sorted(glob.glob("crates/*/specs/*.antt") + glob.glob("crates/*/proofs/*.antt")):
        renamed.update(ported(git(p), ORIGINAL[p]))
    renamed.update(LIBRARY_NAMES)
    for p in every:
        out, source = [], ""
        for line in open(p, encoding="utf-8").read().splitlines():
            if line.startswith("file: "):
                name = p.split("must-fail/")[0] + line[6:].strip()
                source = open(name, encoding="utf-8").read()
            if re.match(r"(old|new): ", line):
                key, text = line.split(": ", 1)
                code = "/src/" in name
                text = text if code and "now" not in text else tight(text)
                text = TOKEN.sub(lambda m: renamed.get(m.group(0), m.group(0)), text)
                text = TOKEN.sub(lambda m: names.get(m.group(0), m.group(0)), text)
                line = key + ": " + (clause(text, source) if code and ("now" in text or "r ≡" in text) else text)
            out.append(line)
        open(p, "w", encoding="utf-8").write("\n".join(out) + "\n")


# A projection is written tight, and a path is one argument.
def tight(text):
    text = re.sub(r"\(([\w']+(?: [\w']+)+) \.([a-z][\w-]*)\)", r"(\1).\2", text)
    text = re.sub(r"(?<=[\w'\)]) \.(?=[a-z0-9])", ".", text)
    return re.sub(r"\(([\w']+(?:\.[\w-]+)+)\)", r"\1", text)


# A clause names its values by x.now, x.old, x.new and result.
def clause(text, source):
    def value(m):
        lent = re.search(r"\b%s: &mut " % m.group(1), source)
        return m.group(1) + ("." + ("old" if m.group(2) == "entry" else "new") if lent else ".now")

    text = re.sub(r"\(now \(?(\w+)\.(entry|exit)\)?\)", value, text)
    if text.endswith(" (now"):
        text = text[:-4] + ("text" if "(text: " in source else "src") + ".now"
    text = re.sub(r"^r ≡", "result ≡", text)
    return re.sub(r"(?<= )r(?= |$)", "result", text)


def main():
    for p in glob.glob("crates/*/specs/*.antt") + glob.glob("crates/*/proofs/*.antt"):
        ORIGINAL[p] = open(p, encoding="utf-8").read()
    specs = declared(glob.glob("crates/*/specs/*.antt"))
    lemmas = declared(glob.glob("crates/*/proofs/*.antt"))
    words = LIBRARY | {snake(n) for n in specs if "-" not in n}
    names = {}
    for n in list(specs) + list(lemmas):
        new = spelled(n, words)
        if new != n:
            names[n] = new
    files = sorted(glob.glob("crates/*/specs/*.antt") + glob.glob("crates/*/proofs/**/*.antt", recursive=True) + glob.glob("crates/*/src/**/*.rt", recursive=True))
    there = collections.defaultdict(set)
    for p in files:
        for t in TOKEN.findall(open(p, encoding="utf-8").read()):
            there[t].add(p)
    # a lemma gives way to a definition
    everything = set(specs) | set(lemmas)
    taken = {names.get(n, n) for n in everything if "-" not in n and (n in specs or n in names)}
    for n in everything:
        if names.get(n, n) in taken and ("-" in n or (n in lemmas and n not in names and n not in specs)):
            names[n] = names.get(n, n) + "_lem"
    back = collections.defaultdict(list)
    for old in everything:
        back[names.get(old, old)].append(old)
    for new, olds in sorted(back.items()):
        if len(olds) > 1:
            print("falls together:", new, olds)
        elif new not in everything and new in there:
            print("is used otherwise:", new, olds, sorted(there[new])[:4])
    if "--look" in sys.argv:
        print(len(names), "names")
        return
    for p in files:
        text = open(p, encoding="utf-8").read()
        new = TOKEN.sub(lambda m: names.get(m.group(0), m.group(0)), text)
        if new != text:
            open(p, "w", encoding="utf-8").write(new)
    edits(names)
    print(len(names), "names respelled")


main()
