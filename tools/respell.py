#!/usr/bin/env python3
"""Brings the repository's own definitions and lemmas to the spelling of the library: words in snake case, types in camel case.

usage: python3 tools/respell.py      once, at the top, right after the kit's port.py

It renames what specs/ and the lemma files of proofs/ declare: capitals and dashes inside a word give way to `_`. A lemma that would then have the name of the
definition that it is about gets `_lem`. Functions of src/, types, exported names and strings keep their names. The crate `hex`, whose name the kit has, becomes `hex_digits`.
The documents change with the crates, in what stands between backticks.
"""

import os
import re
import subprocess

WORD = r"[^\s(){}\[\],;:.λ«»\"`]+"
DECLARED = re.compile(r"^\s*(?:(?:pub|abbrev|unfoldable|data|record|ruleset) )*(" + WORD + r"(?: " + WORD + r")*)(?: \{.*?\}| \(.*?\))* :(?: |$)")
OF_A_FUNCTION = ("Proof.antt", "Answers.antt", "Invariants.antt")
DOCUMENTS = ("README.md", "docs/CLAIMS.md", "docs/DECISIONS.md", "docs/LANDINGS.md")


def texts(*endings):
    for folder, folders, names in os.walk("crates"):
        folders[:] = sorted(f for f in folders if f != "out")
        for name in sorted(names):
            if name.endswith(endings):
                yield os.path.join(folder, name)


def read(path):
    with open(path, encoding="utf-8") as f:
        return f.read()


def snake(word):
    if re.match(r"[A-Z]", word) and "-" not in word:
        return word
    if not re.match(r"[A-Z]", word):
        word = re.sub(r"(?<=[a-z0-9₀-₉'])([A-Z])", lambda m: "_" + m.group(1).lower(), word)
    return word.replace("-", "_")


def imported(text):
    """The words that a file takes from the kit."""
    found = set()
    for module, words in re.findall(r"^use (\S+)\.\{(.*?)\}", text, re.M | re.S):
        if not module.startswith("Rattle.") or re.match(r"Rattle\.(std|core)\w*\.", module):
            found |= {w.strip().split(" as ")[0] for w in words.split(",")}
    return found


def declared():
    found = set()
    for path in texts(".antt"):
        # (right below proofs/ or specs/ such a file is one of lemmas or definitions)
        if os.path.basename(path) not in OF_A_FUNCTION or path.count("/") == 3:
            for line in read(path).split("\n"):
                m = DECLARED.match(line)
                if m and not line.lstrip().startswith("--"):
                    found |= {w for w in m.group(1).split() if re.match(r"[A-Za-z]", w)}
    return found


def renamed(words):
    """The new word of each word that gets one. Where a definition and a lemma fall together, the lemma is the one that was written with dashes."""
    turned, taken = {}, {}
    for word in sorted(words):
        taken.setdefault(snake(word), []).append(word)
    for new, olds in taken.items():
        camel = [w for w in olds if re.search(r"[a-z0-9'][A-Z]", w)]
        for old in olds:
            name = new + "_lem" if len(olds) > 1 and old not in camel and camel else new
            if len(olds) > 1 and not camel and "-" in old:
                name = new + "_lem"
            if name != old:
                turned[old] = name
    return turned


def main():
    turned = renamed(declared())
    new = set(turned.values())
    for path in texts(".antt", ".rt", ".edit"):
        text = read(path)
        kept = imported(text)

        def word(m):
            w = m.group(0)
            return turned[w] if w in turned and w not in kept else w

        after = re.sub(WORD, word, text)
        after = re.sub(r"\bRattle\.hex\.", "Rattle.hex_digits.", after)
        after = re.sub(r"\bhex::", "hex_digits::", after)
        if path.endswith(".edit"):
            after = after.replace("Rattle·hex·", "Rattle·hex_digits·")
        if after != text:
            with open(path, "w", encoding="utf-8") as f:
                f.write(after)
    for path in DOCUMENTS:
        parts = read(path).split("`")
        parts[1::2] = [re.sub(WORD, lambda m: turned.get(m.group(0), m.group(0)), it) for it in parts[1::2]]
        after = re.sub(r"`hex(?=`|::)", "`hex_digits", "`".join(parts)).replace("crates/hex/", "crates/hex_digits/")
        with open(path, "w", encoding="utf-8") as f:
            f.write(after)
    with open("crates.txt", encoding="utf-8") as f:
        listed = f.read()
    with open("crates.txt", "w", encoding="utf-8") as f:
        f.write(re.sub(r"(?<![\w])hex(?![\w])", "hex_digits", listed))
    if os.path.isdir("crates/hex"):
        subprocess.run(["git", "mv", "crates/hex", "crates/hex_digits"], check=True)
    print(f"{len(turned)} words turned, {len(new)} new")


if __name__ == "__main__":
    main()
