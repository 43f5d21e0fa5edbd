#!/usr/bin/env python3
"""Spells this repository's own definitions and lemmas as Rattle's style has it: whole words in snake case.

Run once, at the top of the repository, after the toolchain's own script of 2026-11; the argument, if any, is the folder to turn.
A name that specs/ or proofs/ declare turns from `cellSize` or `rank-le` to `cell_size` and `rank_le`, in all files of crates/
(but not where a file has that name from a library), in the edits of must-fail/ and in code spans of the pages.
Where the new name is taken, a lemma gets `_lem` behind it. A function's own goals and steps in its Proof.antt keep their names."""
import collections
import re
import sys
from pathlib import Path

ROOT = Path(sys.argv[1] if len(sys.argv) > 1 else ".")
CRATES = ROOT / "crates"
WORD = r"[^\s(){}.;,@\"«»\[\]|⌜⌝`]+"
TOKEN = re.compile(WORD)
DECLARED = re.compile(r"(?m)^ *((?:(?:abbrev|unfoldable|pub|open|mutual|package) +)*)([^\s(){}.;,@\"«»:]+)(?: \{[^{}\n]*\})* :(?!:)")
USE = re.compile(r"(?m)^\s*(?:pub +)?(?:ghost +)?use +([^\s;{]+?)\.?\{([^}]*)\}")
MADE = re.compile(r"(loop|if|in|while|for|invariant|decreases|call|match|arm|type|well)-")  # how names of steps begin that Rattle makes
FIELD = re.compile(r"\b(\w+): ")


def snake(name):
    return re.sub(r"(?<=[a-z0-9])([A-Z])", lambda m: "_" + m[1].lower(), name).replace("-", "_")


def files():
    for path in sorted(CRATES.rglob("*")):
        if path.is_file() and "out" not in path.relative_to(CRATES).parts and path.suffix in (".antt", ".rt", ".edit"):
            yield path


def code(path, text):
    return re.sub(r"(?<!\S)--[^\n]*" if path.suffix == ".antt" else r"//[^\n]*", "", text)


def main():
    ours = {path.name for path in CRATES.iterdir() if path.is_dir()}
    texts = {path: path.read_text() for path in files()}
    kinds, seen, imported, rust = collections.defaultdict(set), set(), {}, set()
    for path, text in texts.items():
        if path.suffix == ".edit":
            continue
        plain = code(path, text)
        imported[path] = set()
        for module, names in USE.findall(plain):
            parts = module.split(".")
            if not (parts[0] == "Rattle" and len(parts) > 1 and parts[1] in ours):
                imported[path] |= {re.split(r"\s+as\s+", n.strip())[-1] for n in names.split(",")}
        if path.suffix == ".rt":
            rust |= set(FIELD.findall(plain))
            continue
        seen |= set(TOKEN.findall(plain))
        if path.name != "Proof.antt":
            for words, name in DECLARED.findall(plain):
                kinds[name].add("definition" if "abbrev" in words or "unfoldable" in words or "/specs/" in str(path) else "lemma")
    table, taken = {}, collections.Counter()
    for name in kinds:
        new = snake(name)
        if new != name and name[0].islower() and not re.search(r"[→?]", name):
            table[name] = new
            taken[new] += 1
    for name, new in sorted(table.items()):
        definition = "definition" in kinds[name]
        if new in rust:
            table[name] = new + ("_of" if definition else "_lem")
        elif taken[new] > 1 and not definition:
            table[name] = new + "_lem" if "-" in name else new
        elif new in seen:
            if definition and kinds.get(new) == {"lemma"}:
                table[new] = new + "_lem"
            else:
                table[name] = new + ("_of" if definition and new in kinds else "_lem" if not definition else "")
    clash = [n for n, k in collections.Counter(table.values()).items() if k > 1]
    clash += [n for o, n in table.items() if n in seen and n not in table]
    for name in sorted(set(clash)):
        print("look:", name, [o for o, n in table.items() if n == name])
    for path, text in texts.items():
        skip = imported.get(path, set())

        def turned(match):
            name, new = match[0], table.get(match[0])
            if new is None or name in skip:
                return name
            behind = re.search(r"(\S*)\.$", text[max(0, match.start() - 40) : match.start()])
            if "-" in name and behind and path.name == "Proof.antt" and (behind[1].endswith("tie") or MADE.match(name)):
                return name
            return new

        new = TOKEN.sub(turned, text) if path.suffix != ".rt" else re.sub(r"(?<![\w.])[a-z][a-z0-9]*[A-Z]\w*'*|(?<=\.)[a-z][a-z0-9]*[A-Z]\w*'*", turned, text)
        if new != text:
            path.write_text(new)
    pages = [ROOT / "README.md", *sorted((ROOT / "docs").glob("*.md"))]
    for path in pages:
        text = path.read_text()
        new = re.sub(r"`[^`\n]+`", lambda span: TOKEN.sub(lambda m: table.get(m[0], m[0]), span[0]), text)
        if new != text:
            path.write_text(new)
    print(len(table), "names turned")


main()
