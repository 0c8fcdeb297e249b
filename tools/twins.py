#!/usr/bin/env python3
"""twins [COMMIT]: functions of crates/*/src that are the same but for names, types and numbers, a group a line.

Words are read as one word, numbers as one number; signs, `if`, `for`, `match` and the like must be the same, contracts are not
read. Without COMMIT the working tree is read.
"""
import re, subprocess, sys, glob

KEPT = {"if", "else", "for", "while", "loop", "match", "return", "let", "mut", "in", "fn", "struct", "enum", "impl", "as", "true", "false"}


def sources():
    if len(sys.argv) > 1:
        listed = subprocess.run(["git", "ls-tree", "-r", "--name-only", sys.argv[1], "crates"], capture_output=True, text=True, check=True)
        for path in listed.stdout.split("\n"):
            if re.match(r"crates/[^/]+/src/.*\.rt$", path):
                yield path, subprocess.run(["git", "show", f"{sys.argv[1]}:{path}"], capture_output=True, text=True, check=True).stdout
    else:
        for path in sorted(glob.glob("crates/*/src/**/*.rt", recursive=True)):
            yield path, open(path).read()


def items(text):
    """each fn: its name and its text without contract and comments"""
    lines, i = text.split("\n"), 0
    while i < len(lines):
        head = re.match(r"( *)(pub )?(extern \"C\" )?fn (\w+)", lines[i])
        if not head:
            i += 1
            continue
        body, end = [], head[1] + "}"
        while i < len(lines):
            line = lines[i]
            i += 1
            if not re.match(r"\s*(requires|ensures|//|#\[)", line):
                body.append(line)
            if line.startswith(end):
                break
        yield head[4], "\n".join(body)


def shape(text):
    out = []
    for word in re.findall(r"[A-Za-z_]\w*|\d\w*|[^\sA-Za-z0-9_]", text):
        kind = word if word in KEPT else "n" if word[0].isdigit() else "w" if word[0].isalpha() or word[0] == "_" else word
        out.append(kind)
    return " ".join(out)


groups = {}
for path, text in sources():
    for name, body in items(text):
        groups.setdefault(shape(body), []).append((f"{path.split('/')[1]}::{name}", body))
found = sorted((g for k, g in groups.items() if len(g) > 1 and len(k.split()) > 20), key=lambda g: g[0][0])
for group in found:
    print(", ".join(name for name, _ in group))
print(f"{len(found)} groups of {sum(len(g) for g in found)}")
