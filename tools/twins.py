"""Lists the functions of crates/*/src whose bodies have one shape: alike but for names, numbers and strings. Contracts are left out."""

import glob
import re
from collections import defaultdict

KEPT = set(
    "fn let mut match if else for in while loop return self Self Some None Ok Err true false as ref".split()
)
LEAST = 9  # tokens


def bodies(text):
    """Yields each function's name, line and body."""
    lines = text.split("\n")
    i = 0
    while i < len(lines):
        found = re.match(r"\s*(pub(\(crate\))? )?(const )?fn (\w+)", lines[i])
        if not found:
            i += 1
            continue
        start = i
        while i < len(lines) and not opens(lines[i], i == start):
            i += 1
        if i < len(lines) and re.sub(r"//.*", "", lines[i]).rstrip().endswith(";"):
            i += 1
            continue
        body, depth = [], 0
        while i < len(lines):
            line = re.sub(r"//.*", "", lines[i])
            depth += line.count("{") - line.count("}")
            body.append(line)
            i += 1
            if depth <= 0:
                break
        yield found.group(4), start + 1, "\n".join(body)


def opens(line, first):
    """Whether a function's body begins on this line, or its declaration ends on it."""
    line = re.sub(r"//.*", "", line).rstrip()
    if re.match(r"\s*(ensures|requires)", line):
        return line.endswith(";")
    if first:
        return line.endswith(("{", "{}", ";"))
    return line.strip() in ("{", "{}") or line.endswith(("{", "{}", ";"))


def shape(body):
    """The body's tokens, each name but a keyword an x, each number a 0."""
    body = re.sub(r'"[^"]*"', '""', body)
    tokens = []
    for token in re.findall(r"[A-Za-z_]\w*|\d\w*|[^\s\w]", body):
        if token[0].isdigit():
            token = "0"
        elif token[0].isalpha() or token[0] == "_":
            token = token if token in KEPT else "x"
        if token != ",":
            tokens.append(token)
    return tokens


groups = defaultdict(list)
for path in sorted(glob.glob("crates/*/src/**/*.rt", recursive=True)):
    for name, line, body in bodies(open(path).read()):
        tokens = shape(body)
        if len(tokens) >= LEAST:
            place = f"{path.replace('crates/', '').replace('/src', '')}:{line} {name}"
            groups[" ".join(tokens)].append((len(tokens), place))

found = sorted((g for g in groups.values() if len(g) > 1), key=lambda g: -g[0][0])
for group in found:
    print(f"{len(group)} of {group[0][0]} tokens: " + "; ".join(place for _, place in group))
print(f"found: {len(found)}")
