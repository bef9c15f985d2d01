#!/usr/bin/env python3
"""Brings the repository's own definitions and lemmas to one spelling: words in snake case, types in camel case.

usage: tools/rename-names.py [FOLDER]     the repository's folder, or the current one

Run once, behind the kit's own respelling. A lemma whose name would fall together with a definition's gets `_lem` behind it. Names that a
file takes from the kit keep their spelling there, and so do names of Rust functions, strings, inputs and outputs.
"""
import collections
import os
import re
import sys

WORD = re.compile(r"(?<![\w'◌-])[A-Za-z_][\w'-]*(?<!-)")
DECLARED = re.compile(r"^\s*(?:(?:abbrev|unfoldable|opaque|private)\s+)*(?:pub\s+)?((?:[A-Za-z_][\w'-]*\s+)*[A-Za-z_][\w'-]*)\s+:(?:\s|$)")
USED = re.compile(r"^\s*(?:pub\s+)?(?:ghost\s+)?use\s+([\w.+'-]+?)\.?\{([^}]*)\}", re.S | re.M)
WORDS_OF_ANTT = {"let", "in", "where", "record", "use", "module", "elim", "as"}
PAPERS = ("README.md", "c/README.md", "bench/README.md", "oracle/README.md")


def snake(name):
    parts = name.split("-")
    if name[0].isupper():
        return parts[0] + "".join(p[:1].upper() + p[1:] for p in parts[1:])
    return re.sub(r"(?<=[a-z0-9])([A-Z])", lambda m: "_" + m.group(1).lower(), "_".join(parts))


def files(root, *endings):
    for folder, folders, names in os.walk(os.path.join(root, "crates")):
        folders[:] = sorted(f for f in folders if f != "out")
        for name in sorted(names):
            if name.endswith(endings):
                yield os.path.join(folder, name)


def read(path):
    with open(path, encoding="utf-8") as file:
        return file.read()


def declared(root):
    """Each declared name, with the files that declare it."""
    names = collections.defaultdict(set)
    for path in files(root, ".antt"):
        for line in read(path).splitlines():
            found = None if line.lstrip().startswith("--") else DECLARED.match(line)
            for name in found.group(1).split() if found else ():
                if name not in WORDS_OF_ANTT:
                    names[name].add(path)
    return names


def renamings(names):
    """Old name to new; a lemma gives way to a definition."""
    words = {snake(n) for n in names if "-" not in n}
    new = {}
    for name in names:
        to = snake(name)
        if to == name:
            continue
        new[name] = to + "_lem" if "-" in name and name[0].islower() and to in words else to
    return new


def foreign(text, own):
    """The names that a file takes from elsewhere than the repository."""
    taken = set()
    for path, list_of in USED.findall(text):
        parts = path.split(".")
        if not (parts[0] == "Rattle" and len(parts) > 1 and parts[1] in own):
            taken |= set(re.split(r"[\s,.]+", list_of))
    return taken


def respelled(text, new, taken, is_proof):
    """A text of antt with its names respelled. Behind a dot stands a field, which gives way to nothing, unless a module stands before."""

    def one(found):
        word = found.group(0)
        if word not in new or word in taken:
            return word
        at = found.start()
        if at and text[at - 1] == ".":
            before = re.search(r"([\w'-]+)\.$", text[:at])
            if not (before and before.group(1)[0].isupper()):
                return snake(word)
        return new[word]

    lines = []
    for line in text.split("\n"):
        if line.lstrip().startswith("--"):
            lines.append(re.sub(r"`[^`]*`", lambda q: WORD.sub(lambda w: new.get(w.group(0), w.group(0)), q.group(0)), line))
        else:
            lines.append(line)
    text = "\n".join(lines)
    return WORD.sub(lambda f: f.group(0) if in_comment(text, f.start()) else one(f), text)


def in_comment(text, at):
    return text[text.rfind("\n", 0, at) + 1 : at].lstrip().startswith("--")


def clauses(text, new):
    """A text of Rattle: names in ghost lines and in clauses alone."""
    kept = []
    depth = 0
    for line in text.split("\n"):
        starts = re.match(r"\s*(requires|ensures|ghost)\b", line)
        if depth or starts:
            kept.append(WORD.sub(lambda w: new.get(w.group(0), w.group(0)), line))
            depth += line.count("{") - line.count("}")
        else:
            kept.append(line)
    return "\n".join(kept)


def papers(root):
    yield from (os.path.join(root, p) for p in PAPERS if os.path.exists(os.path.join(root, p)))
    docs = os.path.join(root, "docs")
    yield from (os.path.join(docs, p) for p in sorted(os.listdir(docs)) if p.endswith(".md") and p not in ("CHANGES.md", "PORT.md"))


def main():
    root = sys.argv[1] if len(sys.argv) > 1 else "."
    own = set(os.listdir(os.path.join(root, "crates")))
    names = declared(root)
    new = renamings(names)
    texts = {path: read(path) for path in [*files(root, ".antt", ".rt", ".edit"), *papers(root)]}
    known = set(names) | set(new.values())

    def in_paper(word):
        return new.get(word) or (snake(word) if word not in known and snake(word) in known and snake(word) != word else word)

    for path, text in texts.items():
        if path.endswith(".antt"):
            to = respelled(text, new, foreign(text, own), path.endswith("Proof.antt"))
        elif path.endswith(".rt"):
            to = clauses(text, new)
        elif path.endswith(".edit"):
            antt = re.search(r"(?m)^file: .*\.antt$", text)
            to = WORD.sub(lambda w: in_paper(w.group(0)) if antt or re.search("[a-z][A-Z]", w.group(0)) else w.group(0), text)
        else:
            to = re.sub(r"`[^`\n]*`", lambda q: WORD.sub(lambda w: in_paper(w.group(0)), q.group(0)), text)
        if to != text:
            with open(path, "w", encoding="utf-8") as file:
                file.write(to)


main()
