#!/usr/bin/env python3
"""Spells the repository's own definitions and lemmas as Rattle's guides do: words in snake case, types in upper camel case.

usage: python3 tools/spell_names.py    at the top of the repository, once, after the kit's port.py

It goes by text, over crates/ (sources, definitions, proofs and must-fail edits): each word that begins with a small letter and holds a capital, as in
`hasLead-lt`, is written with underscores, as in `has_lead-lt`. Names of Rust items, C names and strings hold no such words. Two definitions that are types get a
capital, and in crate claims what bears the name of a call is spelled as the call. Names that would fall together with another name of the repository are told.
"""

import os
import re
import sys

# A word in lower camel case; dashes and dots part the words of a name.
WORD = re.compile(r"(?<![A-Za-z0-9_'])[a-z][a-z0-9]*(?:[A-Z][A-Za-z0-9]*)+(?:[_'][A-Za-z0-9_']*)?(?![A-Za-z0-9_'])")
TYPES = {"placesNone": "PlacesNone", "placesSound": "PlacesSound"}
# Names that would fall together in one file, and what is written instead before the words are turned.
APART = {
    "crates/form_calls/proofs/Valuing.antt": [("  pub product_at :", "  pub product_there :"), ("  product_at q", "  product_there q")],
    "crates/form_calls/proofs/form_at/Proof.antt": [("product_at", "product_there")],
}
# Fields and answers of crate claims that bear the name of a call are spelled as the call.
CALLS = re.compile(r"(?<![\w'-])(?:linear-space|list-primes|write-form|form-points|form-rewrite|index-(?:build|append|remove)(?:-list)?)(?![\w'-])")
STRING = re.compile(r'b?"(?:[^"\\]|\\.)*"')


def spelled(word):
    return TYPES.get(word) or re.sub(r"(?<=[a-z0-9])([A-Z])", lambda m: "_" + m.group(1).lower(), word)


def turned(text):
    out, at = [], 0
    for literal in STRING.finditer(text):
        out.append(WORD.sub(lambda m: spelled(m.group(0)), text[at : literal.start()]))
        out.append(literal.group(0))
        at = literal.end()
    out.append(WORD.sub(lambda m: spelled(m.group(0)), text[at:]))
    return "".join(out)


def main():
    names, new = set(), {}
    for folder, dirs, files in os.walk("crates"):
        dirs[:] = sorted(d for d in dirs if d != "out")
        for name in sorted(files):
            if not name.endswith((".rt", ".antt", ".edit")):
                continue
            path = os.path.join(folder, name)
            with open(path, encoding="utf-8") as f:
                text = before = f.read()
            for old, other in APART.get(path, []):
                text = text.replace(old, other)
            names.update(re.findall(r"[A-Za-z_][A-Za-z0-9_']*", text))
            for word in WORD.findall(text):
                new[word] = spelled(word)
            lines = [turned(line) if name.endswith(".rt") else WORD.sub(lambda m: spelled(m.group(0)), line) for line in text.split("\n")]
            done = "\n".join(lines)
            if path.startswith("crates/claims/"):
                done = CALLS.sub(lambda m: m.group(0).replace("-", "_"), done)
            if done != before:
                with open(path, "w", encoding="utf-8") as f:
                    f.write(done)
    for word, spelling in sorted(new.items()):
        if spelling in names:
            print(f"look: {word} falls together with {spelling}")
    print(f"{len(new)} words", file=sys.stderr)


if __name__ == "__main__":
    main()
