#!/usr/bin/env python3
"""Brings the project's own definitions and lemmas to today's spelling; run once, after port.py, at the top.

Words are in snake case, types and modules in camel case. A dash joins two names (`has-or`), a plain word is joined by `_`
(`bound_unique`), and a lemma that would have its function's name gets `_lem`. Functions of src/, exported names, strings, inputs and outputs keep their names. What is renamed is printed,
old and new; a name that would fall together with another, or that a library has too, keeps its own.
"""
import glob
import re
import sys

WORD = re.compile(r"[^\s(){}\[\],;.:=→×≡∙λ|\\\"`←]+")
DEFINED = re.compile(r"^ *(?:(?:abbrev|unfoldable|pub|data|record|constructor) )*([^\s:(){}.,;]+) *(?:: |\()", re.M)
# what std and the libraries below it name, as far as the lemmas here speak of it
LIBRARY = set("""length take drop set map sum append replicate get_or cond not and or xor shl shr add sub mul div rem pow mod eqb
ltb leb le lt suc zero min max count nil cons fits ones iff dec""".split())
SPECIAL = {"getD": "get_or"}


def snake(word):
    """firstOf: first_of; aheadInP: ahead_in_p; getD: get_or."""
    for old, new in SPECIAL.items():
        word = re.sub(rf"(?<![A-Za-z]){old}(?![a-z])", new, word)
    return re.sub(r"([a-z0-9])([A-Z])", lambda m: m.group(1) + "_" + m.group(2).lower(), word)


def snake_parts(name):
    """A type keeps its capitals: Falls-next, in each part that begins with a capital."""
    return "-".join(p if p[:1].isupper() else snake(p) for p in name.split("-"))


def text_of(line):
    return line.split("-- ")[0] if not line.lstrip().startswith("--") else ""


def main():
    antt = sorted(glob.glob("crates/*/specs/**/*.antt", recursive=True) + glob.glob("crates/*/proofs/**/*.antt", recursive=True))
    own = [p for p in antt if "/specs/" in p or re.search(r"/proofs/\w+\.antt$", p)]
    defined, local, foreign, seen = set(), set(), set(), set()
    for path in antt:
        text = "\n".join(map(text_of, open(path, encoding="utf-8").read().split("\n")))
        seen.update(WORD.findall(text))
        for line in text.split("\n"):
            m = re.match(r" *(?:pub )?use (?!Rattle\.(?!std))([\w.]+)\.\{(.*?)\}", line)
            if m:
                foreign.update(w.strip().split(" as ")[0] for w in m.group(2).split(","))
        (defined if path in own else local).update(DEFINED.findall(text))
    functions = set()
    for path in glob.glob("crates/*/src/*.rt"):
        functions.update(re.findall(r"\bfn (\w+)", open(path, encoding="utf-8").read()))
    names = {}
    camel = {w for w in defined | local if not w[0].isupper() and re.search(r"[a-z][A-Z]", w)}
    for w in camel:
        names[w] = snake_parts(w)
    # bases of camel words that port.py has already turned, as maskOf in has-maskOf
    words = {snake_parts(w) for w in defined if "-" not in w} | LIBRARY | functions
    for w in sorted(defined):
        turned = names.get(w, snake_parts(w))
        if "-" in turned and not turned.startswith("+"):
            parts = turned.split("-")
            out = parts[0]
            for a, b in zip(parts, parts[1:]):
                out += ("-" if a in words and b in words else "_") + b
            turned = out
        if turned != w:
            names[w] = turned
    # "A lemma that would have its function's name gets `_lem`": assignIn and assign-in
    for w in sorted(names):
        if "-" in w and names[w] in {names[c] for c in camel if "-" not in c}:
            names[w] += "_lem"
    fields = set()
    for path in own:
        for m in re.finditer(r"^( *)(?:pub )?record .*\bwhere\n((?:\1 +.*\n|\n)+)", open(path, encoding="utf-8").read() + "\n", re.M):
            fields.update(re.findall(r"^ +(?:pub )?([^\s:(){}]+) :", m.group(2), re.M))
    taken = seen - set(names)
    kept = []
    for w in sorted(names):
        if w in foreign or (names[w] in taken and "-" in w) or list(names.values()).count(names[w]) > 1:
            kept.append(w)
    for w in kept:
        del names[w]
    for w in sorted(names):
        print(w, names[w], "(falls together with a word that is there: look)" if names[w] in seen else "")
    for w in kept:
        print("kept:", w)
    if "--write" not in sys.argv:
        return
    docs = glob.glob("*.md") + glob.glob("docs/*.md") + glob.glob("books/*.md") + glob.glob("second/*.md") + ["believe", "test"]
    for path in antt + glob.glob("crates/*/src/*.rt") + docs:
        with open(path, encoding="utf-8") as f:
            text = f.read()
        if path.endswith(".rt"):
            # clauses and imports only
            turn = re.sub(r"(ghost use [^;]*;|^ *(?:requires|ensures)\b.*$)", lambda m: respell(m.group(0), names, fields), text, flags=re.M)
        elif path.endswith(".antt"):
            turn = respell(text, names, fields)
        else:
            turn = re.sub(r"`[^`\n]*`", lambda m: respell(m.group(0), names, fields), text)
        if turn != text:
            with open(path, "w", encoding="utf-8") as f:
                f.write(turn)


def respell(text, names, fields):
    def one(m):
        w = m.group(0)
        if "-" in w and w not in fields and m.start() and text[m.start() - 1] == ".":
            return w  # a step or a part of a generated name
        return names.get(w, w)

    return WORD.sub(one, text)


main()
