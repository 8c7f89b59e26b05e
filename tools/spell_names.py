#!/usr/bin/env python3
"""Spells the names that this repository's specs/ and proofs/ declare as today's Rattle does.

usage: python3 tools/spell_names.py            at the top of the repository, once, right after port.py
       python3 tools/spell_names.py --list     only prints each old name with its new one

A name with dashes becomes snake case (`axles-of` -> `axles_of`), and camel case where it begins with a
capital (`Worked-cases` -> `WorkedCases`, and `Goes_on`, as port.py leaves it, -> `GoesOn`). Names that the library or the checker makes keep their dashes:
what is imported from std, and what is declared as a goal (`x : goal.x`) or cited behind a goal's record.
Strings and comments' other words stay. It stops where two names would fall together.
"""
import glob
import re
import sys

WORD = r"(?:[A-Za-z_][\w']*(?:-[\w']+)+|[A-Z][a-z]+_[a-z_]+)"
DASHED = re.compile(r"(?<![\w'\-·◌])" + WORD + r"(?![\w'◌])")
DECLARED = re.compile(r"^\s*(?:unfoldable |abbrev )?(?:pub )?(?:unfoldable |abbrev )?(?:record |data )?(" + WORD + r")\s*(:|\()(.*)$")
LIBRARY = re.compile(r"use (?:Rattle\.std|Prim|logic)[\w.·-]*\.\{([^}]*)\}")
STRING = re.compile(r'b?"(?:[^"\\]|\\.)*"')


def files():
    out = []
    for end in ("antt", "rt"):
        out += glob.glob(f"crates/*/specs/**/*.{end}", recursive=True)
        out += glob.glob(f"crates/*/proofs/**/*.{end}", recursive=True)
        out += glob.glob(f"crates/*/src/**/*.{end}", recursive=True)
    return sorted(out)


def bare(path, line):
    """The line without its comment and strings."""
    line = line.split("--")[0] if path.endswith(".antt") else line.split("//")[0]
    return STRING.sub('""', line)


def turned(name):
    if name[0].isupper():
        return "".join(part[:1].upper() + part[1:] for part in re.split("[-_]", name))
    return name.replace("-", "_")


def own_names(texts):
    declared, kept = set(), set()
    for path, text in texts.items():
        for names in LIBRARY.findall(text):
            kept.update(n.strip() for n in names.split(","))
        if path.endswith(".antt"):
            for line in text.split("\n"):
                found = DECLARED.match(bare(path, line))
                if found:
                    made = found.group(2) == ":" and re.match(r"\s*(goal|given)\.", found.group(3))
                    (kept if made else declared).add(found.group(1))
    return declared - kept


def collisions(names, texts):
    there = {}
    for path, text in texts.items():
        for line in text.split("\n"):
            for word in re.findall(r"(?<![\w'\-])[A-Za-z_][\w']*(?![\w'\-])", bare(path, line)):
                there.setdefault(word, set()).add(path)
    new = {}
    for n in names:
        new.setdefault(turned(n), []).append(n)
    twice = [f"{k}: {v}" for k, v in new.items() if len(v) > 1]
    return twice, {turned(n): sorted(there[turned(n)]) for n in sorted(names) if turned(n) in there}


def spelled(path, text, names):
    def word(m):
        return turned(m.group()) if m.group() in names else m.group()

    def line(l):
        out, at = [], 0
        for s in STRING.finditer(l):
            out += [DASHED.sub(word, l[at:s.start()]), s.group()]
            at = s.end()
        return "".join(out + [DASHED.sub(word, l[at:])])

    return "\n".join(line(l) for l in text.split("\n"))


def main(argv):
    texts = {p: open(p, encoding="utf-8").read() for p in files()}
    names = own_names(texts)
    twice, met = collisions(names, texts)
    for l in twice:
        print("together:", l)
    for name, where in met.items():
        print("met:", name, *where)
    if argv == ["--list"]:
        for n in sorted(names):
            print(n, turned(n))
        return 0
    if twice:
        return 1
    for p, t in texts.items():
        new = spelled(p, t, names)
        if new != t:
            with open(p, "w", encoding="utf-8") as f:
                f.write(new)
    print(f"{len(names)} names")
    return 0


if __name__ == "__main__":
    raise SystemExit(main(sys.argv[1:]))
