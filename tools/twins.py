#!/usr/bin/env python3
"""Lists the pairs of functions in crates/*/src whose bodies have one shape: the same but for names, numbers and texts.

Each body is read as its tokens, with every name as `x`, every number as `0` and every text as `"`; a pair is listed where
at least four fifths of the tokens match in order and both bodies have 20 tokens or more. Call: tools/twins.py [FOLDER]
"""
import difflib
import pathlib
import re
import sys

WORDS = {"if", "else", "for", "in", "while", "let", "match", "return", "mut", "Ok", "Err", "Some", "None", "self", "fn"}
TOKEN = re.compile(r"//[^\n]*|\"[^\"]*\"|b?'[^']*'|[A-Za-z_]\w*|\d[\w_]*|[^\s\w]")


def shape(body):
    out = []
    for token in TOKEN.findall(body):
        if token.startswith("//"):
            continue
        if token[0] == '"':
            out.append('"')
        elif token[0].isdigit() or token[0] == "'" or token[:2] == "b'":
            out.append("0")
        elif token[0].isalpha() or token[0] == "_":
            out.append(token if token in WORDS else "x")
        else:
            out.append(token)
    return out


def functions(path):
    text = path.read_text()
    for found in re.finditer(r"^( *)(?:pub(?:\(crate\))? )?fn (\w+)", text, re.M):
        indent = found.group(1)
        start = re.compile(rf"^{indent}(?:.*[^=]|)\{{$|^{indent}\{{$", re.M)
        opened = None
        for line in re.finditer(r"^.*$", text[found.start():], re.M):
            t = line.group(0)
            if t == indent + "{" or (t.startswith(indent) and t.endswith(") {") or re.search(r"-> [^{;]*\{$", t)) and not t.lstrip().startswith(("ensures", "requires")):
                opened = found.start() + line.end()
                break
            if t.endswith(";") and not t.lstrip().startswith("ghost"):
                break
        if opened is None:
            continue
        closed = re.compile(rf"^{indent}\}}", re.M).search(text, opened)
        if closed:
            yield f"{path}:{text.count(chr(10), 0, found.start()) + 1} {found.group(2)}", shape(text[opened:closed.start()])


def main():
    root = pathlib.Path(sys.argv[1] if len(sys.argv) > 1 else ".")
    all_ = [f for path in sorted(root.glob("crates/*/src/**/*.rt")) for f in functions(path)]
    print(f"{len(all_)} functions")
    pairs = []
    for i, (a, x) in enumerate(all_):
        for b, y in all_[i + 1:]:
            if min(len(x), len(y)) < 20:
                continue
            ratio = difflib.SequenceMatcher(None, x, y, autojunk=False).ratio()
            if ratio >= 0.8:
                pairs.append((ratio, a, b))
    for ratio, a, b in sorted(pairs, reverse=True):
        print(f"{ratio:.2f}  {a}  ~  {b}")
    print(f"{len(pairs)} pairs")


main()
