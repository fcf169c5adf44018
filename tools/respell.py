#!/usr/bin/env python3
"""Brings the repository's own definitions and lemmas to today's spelling: words in snake case, facts and types in camel case.

Run once, at the top of the repository, after Rattle's own port.py. It goes by the names that stand in the files of
specs/ and in the lemma files of proofs/, and respells them wherever a clause, a specification or a proof names them.
Names of the library, names that Rattle makes itself, code, strings and comments stay as they are.
"""
import os
import re

# a name in several words: with hyphens, or a capital and an underscore, as port.py left one
NAME = r"(?:[^\W\d][\w']*(?:-[\w']+)+|[A-Z][a-z0-9]+_[a-z]\w*)"
HYPHENED = re.compile(r"(?<![\w'-])" + NAME + r"(?![\w'-])")
IMPORT = re.compile(r"use ([\w.]+)\.\{([^}]*)\}")
LIBRARY = ("Rattle.std", "Rattle.core", "mathlib", "lib.", "Prim")
# a name that no rule brings to a spelling
BY_HAND = {"256-blocks": "blocks_256"}
GHOST = re.compile(r"^\s*(ghost |requires|ensures|let .*:\s*ghost)")


def respelled(name):
    if name[0].isupper():
        return "".join(part[:1].upper() + part[1:] for part in re.split("[-_]", name))
    return name.replace("-", "_")


def sources(endings):
    for folder, folders, files in os.walk("crates"):
        folders[:] = [f for f in folders if f not in ("out", "target")]
        for file in files:
            if file.endswith(endings):
                yield os.path.join(folder, file)


def without_comment(line, mark):
    code, sign, comment = line.partition(mark)
    return code, sign + comment


def library_names(texts):
    names = set()
    for text in texts.values():
        for root, items in IMPORT.findall(text):
            if root.startswith(LIBRARY):
                names.update(item.split(" as ")[0].strip() for item in items.split(","))
    return names


def aliases(texts):
    return {
        item.split(" as ")[1].strip()
        for text in texts.values()
        for _, items in IMPORT.findall(text)
        for item in items.split(",")
        if " as " in item
    }


def own_names(texts):
    names = {alias for alias in aliases(texts) if HYPHENED.fullmatch(alias)}
    for path, text in texts.items():
        if re.search(r"/(specs|proofs)/[^/]+\.antt$", path):
            for line in text.split("\n"):
                names.update(HYPHENED.findall(without_comment(line, "--")[0]))
    return names


def main():
    texts = {path: open(path, encoding="utf-8").read() for path in sources((".antt", ".rt"))}
    names = own_names(texts) - library_names(texts)

    def turn(match):
        return respelled(match.group()) if match.group() in names else match.group()

    for path, text in texts.items():
        lines = []
        for line in text.split("\n"):
            code, comment = without_comment(line, "--" if path.endswith(".antt") else "//")
            if path.endswith(".antt") or GHOST.match(code):
                code = HYPHENED.sub(turn, code)
                for old, new in BY_HAND.items():
                    code = code.replace(old, new)
            lines.append(code + comment)
        turned = "\n".join(lines)
        if turned != text:
            open(path, "w", encoding="utf-8").write(turned)


if __name__ == "__main__":
    main()
