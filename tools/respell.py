#!/usr/bin/env python3
"""Brings this repository's own ghost names to the spelling that the library has: words and lemmas in snake case,
facts and types in camel case, a prime as an apostrophe. Names of the library, and names that the checker makes for
a function's goals, stay as they are; so does a dash by which a lemma's name joins two words, as in length-take.

    tools/respell.py [--list]      run once, at the top; --list only prints the renamings and the names that fall together
"""
import collections
import glob
import re
import sys

# A lemma about a word of the library keeps the dash behind that word, as the library's own lemmas do.
JOINED = ("length-", "take-", "drop-", "get_or-", "set-", "sum_by-", "All-", "replicate-")

# Names that would fall together with a name of the code.
APART = {
    "block-length": "length_in_slot",
    "clip-run": "clip_run_from",
    "energy-of": "capped_energy",
    "extent-of": "extent_from",
    "new-blocks": "count_of_new",
    "put-refusal": "refusal_of_put",
    "read-refusal": "refusal_of_read",
    "slot-count": "count_of_slots",
    "frames-stay": "frames_stay_lem",
    "border-whole": "border_whole_lem",
    "checks-stand": "checks_stand_lem",
}

NAME = r"[^\s(){}\[\],;:.λ∙\"«»|]+"
TOKEN = re.compile(NAME)
TOP = re.compile(r"^ *(?:abbrev )?(?:pub )?(?:unfoldable )?(?:pub )?(%s) :(?:\s|$)" % NAME)
TYPE = re.compile(r"^ *(?:pub )?(?:data|record) (?:pub )?(%s)" % NAME)
MEMBER = re.compile(r"^ +(?:pub )?(%s(?: %s)*) : " % (NAME, NAME))
BINDER = re.compile(r"[({]((?:%s)(?: (?:%s))*) : " % (NAME, NAME))
LAMBDA = re.compile(r"λ ((?:%s ?)+)\." % NAME)
LET = re.compile(r"let (%s) (?::|=)" % NAME)
IMPORT = re.compile(r"^(?:ghost )?use (\S+?)\.\{(.*)\}")


def ghost_files():
    return sorted(f for part in ("specs", "proofs") for f in glob.glob("crates/*/%s/**/*.antt" % part, recursive=True))


def code_files():
    return sorted(glob.glob("crates/*/src/**/*.rt", recursive=True))


def edit_files():
    return sorted(glob.glob("crates/*/must-fail/*.edit"))


def needs(name):
    return "′" in name or re.search(r"[\w'₀-₉]-[\w]", name)


def respelled(name):
    if name in APART:
        return APART[name]
    new = name.replace("′", "'")
    if new.startswith(JOINED):
        return new
    if new[0].isupper():
        parts = new.split("-")
        return parts[0] + "".join(p[0].upper() + p[1:] for p in parts[1:])
    return re.sub(r"(?<=[\w'₀-₉])-(?=\w)", "_", new)


def is_answers(path):
    return path.endswith(("/Answers.antt", "/Invariants.antt", "/Choices.antt"))


def own_names():
    own, foreign, all_own, fields = set(), set(), set(), set()
    for path in ghost_files():
        for line in open(path):
            line = re.sub(r"--( |$).*", "", line.rstrip("\n"))
            m = IMPORT.match(line)
            if m:
                if ".std." in m.group(1) or ".core." in m.group(1) or m.group(1).endswith((".Goals", ".Given")):
                    foreign.update(n.split(" as ")[0].strip() for n in m.group(2).split(","))
                continue
            found = []
            m = TYPE.match(line)
            if m:
                found.append(m.group(1))
            elif not is_answers(path):
                m = TOP.match(line)
                if m:
                    found.append(m.group(1))
            m = MEMBER.match(line)
            if m and not is_answers(path):
                found += m.group(1).split()
                fields.update(m.group(1).split())
            for pattern in (BINDER, LAMBDA, LET):
                for m in pattern.finditer(line):
                    found += m.group(1).split()
            # the variables of a clause's left side
            m = re.match(r"^(%s) (.*?) =(?: |$)" % NAME, line)
            if m and not is_answers(path):
                found += TOKEN.findall(m.group(2))
            all_own.update(found)
            own.update(n for n in found if needs(n))
    return {n for n in own if n not in foreign}, foreign, all_own, fields


def main():
    own, foreign, all_own, fields = own_names()
    names = {n: respelled(n) for n in own}
    names = {n: m for n, m in names.items() if n != m}
    code = set()
    for path in code_files():
        for m in re.finditer(r"\b(?:fn|struct|enum|mod|const|trait|let|mut) (\w+)", open(path).read()):
            code.add(m.group(1))
    if "--list" in sys.argv:
        by_new = collections.defaultdict(set)
        for n, m in names.items():
            by_new[m].add(n)
        for n, m in sorted(names.items()):
            print(n, "->", m)
        for m, olds in sorted(by_new.items()):
            if len(olds) > 1:
                print("together:", m, sorted(olds))
            if m in all_own or m in foreign:
                print("there already:", m, sorted(olds))
            if m in code:
                print("also a name of the code:", m, sorted(olds))
        return
    for path in ghost_files() + code_files() + edit_files():
        comment = "--" if path.endswith(".antt") else "//"
        rewrite(path, lambda line: in_code(line, comment, names, fields, is_answers(path)))
    for path in sorted(glob.glob("docs/*.md")) + ["README.md"]:
        rewrite(path, lambda line: in_quotes(line, names))


def rewrite(path, turn):
    text = open(path).read()
    new = "\n".join(turn(line) for line in text.split("\n"))
    if new != text:
        open(path, "w").write(new)


def in_quotes(line, names):
    return re.sub(r"`[^`]*`", lambda m: TOKEN.sub(lambda t: swapped(t.group(0), names), m.group(0)), line)


def swapped(token, names):
    return "`".join(names.get(part, part) for part in token.split("`"))


def in_code(line, comment, names, fields, answers):
    start = re.search(r"(^|\s)%s(\s|$)" % re.escape(comment), line)
    head, tail = (line, "") if not start else (line[: start.start()], line[start.start() :])

    # in the answers of a function, what stands behind a dot is mostly a name that the checker makes
    def turn(m):
        name = m.group(0)
        made = answers and re.search(r"(?:^|[\s(])[a-z]\w*'?(?:\.[^\s.()]+)*\.$", head[: m.start()])
        if made and name not in fields:
            return name
        return names.get(name, name)

    return TOKEN.sub(turn, head) + in_quotes(tail, names)


if __name__ == "__main__":
    main()
