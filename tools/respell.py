#!/usr/bin/env python3
"""Brings the repository's own definitions, record fields and lemmas to snake case, once, after the kit's port.py.

usage: python3 tools/respell.py [--list]    at the top of the repository

A word is joined by `_`; in a lemma's name a dash stays where it joins the names of two definitions, as in `heads-append`.
Names that Rattle makes from the source (goals, steps) and names of the code are left alone. It prints the names that come to be spelled as another, and goes on.
It takes a word of a comment for a name too, as in `two-way search`: those were put right by hand.
"""
import glob
import re
import sys

NAME = r"[^\s(){}\[\],;.:=«»\"`]+"
MADE = re.compile(r"-(requires|init|preserved|smaller)(-|$)|^(returns|bounds|overflow|offset-bounds|slice-bounds|nonzero|invariant|decreases|prove|ghosts)-")
STD = "length map take drop reverse append among cond nth all get_or slice_get slice_index set filter sum max min".split()


def files():
    return sorted(glob.glob("crates/*/specs/*.antt") + glob.glob("crates/*/proofs/**/*.antt", recursive=True))


def declared():
    """Each name declared in specs/ and proofs/: the kinds of places where."""
    found = {}
    for f in files():
        kind = "spec" if "/specs/" in f else ("lemma" if f.count("/") == 3 else "proof")
        for line in open(f, encoding="utf-8"):
            if line.startswith(("use ", "mod ", "pub mod", "pub use", "--", "open ")):
                continue
            top = re.match(rf"^(?:abbrev |unfoldable |pub |record |data )*({NAME})\s.*?(:|where)", line)
            inner = re.match(rf"^\s+(?:pub )?({NAME})\s+:\s", line)
            if top:
                found.setdefault(top.group(1), set()).add(kind)
            if inner:
                found.setdefault(inner.group(1), set()).add("field")
    return found


def snake(name):
    return re.sub(r"([a-z])([A-Z])", lambda m: m.group(1) + "_" + m.group(2).lower(), name.replace("-", "_"))


def lemma(name, words):
    """The words of a lemma's name: the longest known names from the left, joined by dashes; other words by `_`."""
    parts, at = name.split("-"), 0
    out = []
    while at < len(parts):
        for end in range(len(parts), at, -1):
            word = "_".join(parts[at:end])
            if word in words and (end - at > 1 or word in words):
                break
        else:
            end, word = at + 1, None
        out.append((word or parts[at], word is not None))
        at = end
    text = out[0][0]
    for (_, was), (word, known) in zip(out, out[1:]):
        text += ("-" if was and known else "_") + word
    return text


def renames():
    found = declared()
    words = {snake(n) for n, kinds in found.items() if "spec" in kinds and not n[0].isupper()} | set(STD)
    new = {}
    for name, kinds in found.items():
        odd = "-" in name or re.match(r"^[a-z]+[A-Z]", name)
        if not odd or MADE.search(name) or re.match(r"^loop(-|$)", name):
            continue
        new[name] = lemma(name, words) if kinds <= {"lemma", "proof"} else snake(name)
    return {a: b for a, b in new.items() if a != b}


def main():
    new = renames()
    together = {}
    for a, b in new.items():
        together.setdefault(b, []).append(a)
    texts = {f: open(f, encoding="utf-8").read() for f in files() + sorted(glob.glob("crates/*/src/**/*.rt", recursive=True))}
    tokens = {t for f, s in texts.items() if f.endswith(".antt") for t in re.findall(NAME, s)}
    for b, olds in sorted(together.items()):
        if len(olds) > 1 or b in tokens:
            print("falls together:", " ".join(olds), "->", b, "(stands already)" if b in tokens else "")
    if "--list" in sys.argv:
        for a, b in sorted(new.items()):
            print(a, b)
        return
    token = re.compile(rf"(?<![^\s(){{}}\[\],;.:=«»\"`])({NAME})")
    for f, s in texts.items():
        if f.endswith(".antt"):
            t = token.sub(lambda m: new.get(m.group(1), m.group(1)), s)
        else:
            t = "".join(ghost(line, token, new) for line in s.splitlines(keepends=True))
        if t != s:
            open(f, "w", encoding="utf-8").write(t)


def ghost(line, token, new):
    """A line of src/, where only clauses, ghost items and comments have dashes within a word."""
    return token.sub(lambda m: new.get(m.group(1), m.group(1)), line)


main()
