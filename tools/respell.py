#!/usr/bin/env python3
"""Brings the names of definitions and lemmas to one spelling: snake case, and upper camel case for facts and types.

Run once at the top of the repository, after the toolchain's own script. It collects each name with a dash that specs/ or
proofs/ declare (but not the answers to goals, which bear the goals' names) and writes it anew in specs/, proofs/, the clauses
of src/, the must-fail edits, and, between backticks, in README.md and docs/. A name that would fall together with another
word of the repository's definitions, or with a new name, is printed, and then nothing is written.
"""
import os
import re
import sys

WORD = r"[\w'’′]+(?:-[\w'’′+*]+)+"
NAME = re.compile(r"(?<![\w'·◌-])(" + WORD + r")(?![\w'◌-])")
HEAD = re.compile(r"^\s*(?:(?:abbrev|unfoldable|pub|data|record|ruleset)\s+)*(" + WORD + r")\s*(?:[({][^:]*(?::[^:]*)*)?:(?!:)")
PLAIN = re.compile(r"(?<![\w'-])[^\W\d][\w']*(?![\w'-])")
PATH = re.compile(r"^use Rattle\.[\w.+-]*", re.M)
CODE_SKIP = re.compile(r'//[^\n]*|b?"(?:[^"\\]|\\.)*"')


def files(top, endings):
    for folder, below, names in os.walk(top):
        below[:] = sorted(b for b in below if b not in ("out", ".git"))
        for name in sorted(names):
            if name.endswith(endings):
                yield os.path.join(folder, name)


def read(path):
    with open(path, encoding="utf-8") as file:
        return file.read()


def respelled(name):
    if name[0].isupper():
        return "".join(part[0].upper() + part[1:] for part in name.split("-"))
    return name.replace("-", "_")


def declared():
    found = {}
    for path in files("crates", ".antt"):
        for line in read(path).split("\n"):
            head = HEAD.match(line)
            if head and not re.search(r":\s*goal\.", line):
                found.setdefault(head.group(1), path)
    return found


def outside(text, skip, change):
    parts, end = [], 0
    for hole in skip.finditer(text):
        parts += [change(text[end:hole.start()]), hole.group(0)]
        end = hole.end()
    return "".join(parts + [change(text[end:])])


def main():
    found = declared()
    new = {name: respelled(name) for name in found}
    plain = {}
    for path in files("crates", ".antt"):
        for word in PLAIN.findall(PATH.sub("", read(path))):
            plain.setdefault(word, path)
    clashes = ["%s, as %s in %s" % (name, new[name], plain[new[name]]) for name in sorted(new) if new[name] in plain]
    clashes += ["%s and %s" % (a, b) for a in new for b in new if a < b and new[a] == new[b]]
    if clashes:
        print("these fall together:\n" + "\n".join(clashes))
        return 1

    def change(text):
        return NAME.sub(lambda word: new.get(word.group(1), word.group(1)), text)

    written = 0
    for path in files("crates", (".antt", ".rt", ".edit")):
        old = read(path)
        text = outside(old, CODE_SKIP, change) if path.endswith(".rt") else change(old)
        if text != old:
            written += 1
            with open(path, "w", encoding="utf-8") as file:
                file.write(text)
    for path in ["README.md"] + list(files("docs", (".md", ".txt"))):
        old = read(path)
        text = re.sub(r"`[^`\n]*`", lambda quoted: change(quoted.group(0)), old)
        if text != old:
            written += 1
            with open(path, "w", encoding="utf-8") as file:
                file.write(text)
    print("%d names respelled, %d files written" % (len(new), written))
    return 0


if __name__ == "__main__":
    sys.exit(main())
