#!/usr/bin/env python3
"""Respells the repository's own words of specs/ and proofs/ in snake case: camel case and dashes become underscores. Run once, after port.py.

usage: python3 tools/respell.py [--dry]      at the top

A word is one that a file of specs/, or of proofs/ outside the folders of functions, declares: a definition, a lemma, a constructor, a field. Types, modules,
functions of src/, exported names, strings and what Rattle makes keep their names. Where two words of one file would fall together, the lemma gets `_lem`:
the one with dashes, or the one that port.py has turned from dashes already.
"""
import collections
import glob
import re
import sys

WORD = r"[^\s.,;:(){}@λ→×\"`]+"
# laws of the library's operations, which have these names in snake case
LAWS = {"bit-and": "bit_and_lem", "bit-or": "bit_or_lem", "bit-xor": "bit_xor_lem"}
# words of one proof
INNER = {"no-use": "no_use", "into-a": "into_a", "into-b": "into_b", "f-step": "f_step", "noS": "no_s", "noB": "no_b"}


def files(pattern):
    return sorted(p for p in glob.glob(pattern, recursive=True) if "/out/" not in p)


def declared(path):
    """The words that a file declares."""
    found, kind = [], None
    for line in open(path, encoding="utf-8"):
        text = line.rstrip("\n")
        if not text.strip() or text.lstrip().startswith("--"):
            continue
        if re.match(r"(use|pub use|mod|pub mod|infix\w*|unfolding) ", text.lstrip()) and not text.startswith("module"):
            continue
        head = re.match(rf"(\s*)((?:pub |abbrev |unfoldable |opaque )*)(data |record )?({WORD})", text)
        if not head:
            continue
        if head[3]:
            kind = head[3].strip()
            found.append(head[4])
            continue
        if kind and not head[1]:
            kind = None
        rest = text[head.end():]
        # a signature: the word, perhaps parameters, then a colon of its own
        if re.match(r"(\s+[({][^=]*)?\s*:(\s|$)", rest) and head[4] not in ("where", "let", "in"):
            found.append(head[4])
        # several words of one type
        several = re.match(rf"\s+({WORD}(?: {WORD})+) :\s", text)
        if several and kind:
            found += several[1].split()
        # fields and constructors of one line
        for word in re.findall(rf"[;{{]\s*({WORD})\s+:", rest):
            found.append(word)
    return found


def snake(word):
    plain = word.replace("-", "_")
    if re.fullmatch(r"[A-Z0-9_]+", plain) or not re.search(r"[a-z]", plain):
        return plain
    if plain[:1].isupper() and "_" not in plain:
        return plain
    # a capital after a small letter or a digit begins a word; a row of capitals is one
    parts = plain.split("_")
    turned = []
    for i, part in enumerate(parts):
        if part[:1].isupper():
            turned.append(part)
        else:
            turned.append(re.sub(r"(?<=[a-z0-9])([A-Z]+)", lambda m: "_" + m[1].lower(), part))
    return "_".join(turned)


def mapping():
    words = collections.Counter()
    for path in files("crates/*/specs/**/*.antt") + files("crates/*/proofs/*.antt"):
        words.update(declared(path))
    turned = {w: snake(w) for w in words if "◌" not in w}
    together = collections.defaultdict(set)
    for w, n in turned.items():
        together[n].add(w)
    held = [set(re.findall(WORD, open(path, encoding="utf-8").read())) for path in files("crates/**/*.antt") + files("crates/*/src/**/*.rt")]
    for n, ws in together.items():
        if len(ws) > 1 and any(len(ws & tokens) > 1 for tokens in held):
            # in this order: with a dash, as it is, in camel case; the last one is the definition
            *lemmas, _ = sorted(ws, key=lambda w: ("-" not in w, w != n))
            for w in lemmas:
                turned[w] = n + "_lem"
    turned |= {w: n for w, n in LAWS.items() if w in words} | INNER
    return {w: n for w, n in turned.items() if w != n}


def respell(text, turn, keep_dotted):
    pattern = re.compile(r"(?<![\w'\-◌⊑≢≡≤₀₁])(" + "|".join(sorted(map(re.escape, turn), key=len, reverse=True)) + r")(?![\w'\-◌⊑≢≡≤₀₁])")

    def one(m):
        if keep_dotted and m.start() > 0 and text[m.start() - 1] == "." and "-" in m[1]:
            return m[1]
        return turn[m[1]]

    return pattern.sub(one, text)


def main(argv):
    turn = mapping()
    print(len(turn), "words")
    if "--dry" in argv:
        for w, n in sorted(turn.items()):
            print(w, n)
        return 0
    for path in files("crates/**/*.antt") + files("crates/*/src/**/*.rt"):
        old = open(path, encoding="utf-8").read()
        new = respell(old, turn, path.endswith("/Proof.antt"))
        if new != old:
            open(path, "w", encoding="utf-8").write(new)
    return 0


if __name__ == "__main__":
    raise SystemExit(main(sys.argv))
