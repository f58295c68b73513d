#!/usr/bin/env python3
"""Brings the repository's own definitions and lemmas to today's spelling, once, at the top, after the kit's scripts.

Words get underscores for dashes (`slot-at` becomes `slot_at`), types and modules capitals (`Kept-promise` becomes `KeptPromise`).
A name is turned where a file of specs/ or a lemma file of proofs/ declares it, or a proof binds it; names of the
libraries and labels that the checker makes keep their spelling. Names that would fall together are told, and get the
name that TOGETHER has for them.
"""

import collections
import os
import re
import sys

TOKEN = re.compile(r"(?<![\w'-])[A-Za-z_][\w']*(?:-[\w']+)+")
WORD = r"[A-Za-z_][\w']*(?:-[\w']+)*"
# old name: new name, where the plain rule would make two names one
TOGETHER = {"Into-itself": "RefusesIntoItself"}


def files(root):
    for folder, dirs, names in os.walk(os.path.join(root, "crates")):
        dirs[:] = sorted(d for d in dirs if d != "out")
        for name in sorted(names):
            if name.endswith((".antt", ".rt")):
                yield os.path.join(folder, name)


def is_lemma_file(path):
    parts = path.split(os.sep)
    at = parts.index("crates")
    return path.endswith(".antt") and (parts[at + 2] == "specs" or len(parts) == at + 4)


def code(line, path):
    """The line without its comment."""
    if path.endswith(".rt"):
        return re.sub(r"//.*", "", line)
    return re.sub(r"(^|\s)--(\s.*|$)", r"\1", line)


def library(texts):
    found = set()
    for text in texts.values():
        for m in re.finditer(r"use Rattle\.(?:std|core)[\w.]*\.\{([^}]*)\}", text):
            found |= {w.strip() for w in m.group(1).split(",")}
    return found


def declared(path, text):
    """The dashed names that a file declares or binds."""
    found = set()
    for line in text.split("\n"):
        line = code(line, path)
        m = re.match(rf"\s*(?:(?:abbrev|unfoldable|pub|infixl?|infixr?)\s+)*((?:{WORD}\s+)+):(?=\s)", line)
        if m:
            found |= set(m.group(1).split())
        for m in re.finditer(rf"\b(?:record|data|mod)\s+({WORD})", line):
            found.add(m.group(1))
        for m in re.finditer(rf"\blet\s+({WORD})\s*(?::|=|\.)", line):
            found.add(m.group(1))
        for m in re.finditer(rf"[({{]((?:{WORD}\s+)*{WORD})\s*:(?=\s)", line):
            found |= set(m.group(1).split())
        for m in re.finditer(rf"λ\s+((?:{WORD}\s+)*{WORD})\s*\.", line):
            found |= set(m.group(1).split())
        # the arguments of a definition by cases
        m = re.match(rf"\s*({WORD})((?:\s+(?:{WORD}|\([^()]*\)))*)\s*=(\s|$)", line)
        if m and is_lemma_file(path):
            found |= set(re.findall(WORD, m.group(2)))
    return {w for w in found if "-" in w}


def turned(name):
    if name in TOGETHER:
        return TOGETHER[name]
    if name[0].isupper():
        return "".join(p[:1].upper() + p[1:] for p in name.split("-"))
    return name.replace("-", "_")


def main():
    root = os.getcwd()
    texts = {p: open(p, encoding="utf-8").read() for p in files(root)}
    of_library = library(texts)
    own = set()
    labels = set()
    for path, text in texts.items():
        names = declared(path, text)
        if path.endswith(".antt") and not is_lemma_file(path):
            # labels of the checker stand at the left edge, with goal. before them on the right
            labels |= set(re.findall(rf"\bgoal\.({WORD})", text))
            names -= labels
        if path.endswith(".antt"):
            own |= names
    own -= of_library
    plain = collections.defaultdict(set)
    for path, text in texts.items():
        for w in re.findall(r"(?<![\w'-])[A-Za-z_][\w']*(?![\w'-])", "\n".join(code(x, path) for x in text.split("\n"))):
            plain[w].add(path)
    new = collections.defaultdict(set)
    for name in own:
        new[turned(name)].add(name)
    for to, names in sorted(new.items()):
        if len(names) > 1:
            print("together:", to, sorted(names))
        elif to in plain and to not in TOGETHER.values():
            where = sorted({os.path.relpath(p, root) for p in plain[to]})
            mine = sorted({os.path.relpath(p, root) for p, t in texts.items() if re.search(rf"(?<![\w'-]){re.escape(min(names))}(?![\w'-])", t)})
            both = sorted(set(where) & set(mine))
            print("stands:", min(names), "->", to, "| both in", both[:4], "| stands in", where[:3])
    if "--dry" in sys.argv:
        print(len(own), "names")
        return
    count = 0
    for path, text in texts.items():
        out = []
        for line in text.split("\n"):
            kept = code(line, path)
            rest = line[len(kept):]
            out.append(TOKEN.sub(lambda m: turned(m.group(0)) if m.group(0) in own else m.group(0), kept) + rest)
        fresh = "\n".join(out)
        if fresh != text:
            count += 1
            with open(path, "w", encoding="utf-8") as f:
                f.write(fresh)
    print(f"{len(own)} names, {count} files")


main()
