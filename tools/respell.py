#!/usr/bin/env python3
"""Brings the names of definitions and lemmas in specs/ and proofs/ to snake case, once, behind the kit's port.py.

usage: python3 tools/respell.py ROOT [--check]

A word that is defined in a file of specs/ or in a file of lemmas is respelled: 'startSort' and 'start-sort' become 'start_sort'.
It is respelled wherever it is used: in specs/, in proofs/, in clauses and ghost items of src/, and in must-fail edits.
Words that a file imports from the kit's libraries stay in that file. Names of types and modules stay, and so does all code outside of clauses.
"""
import collections
import os
import re
import sys

# Names whose plain respelling would be another word: a law gets '_lem' behind the name of what it is about.
SPECIAL = {"bit-or": "bit_or_lem"}
# Laws that port.py gave the name of what they are about.
LAWS = {"first_run": "first_run_lem", "flat_line": "flat_line_lem"}
# 'result' is what a function returns, in a clause: the sort of a production's result gets another name.
RESULT = ("result", "result_sort", "Rattle.layout.specs.Layout", "crates/layout/specs/Layout.antt")
TOKEN = r"[^\s(){}\[\].;:,@\"«»|=→λ×]+"
USE = re.compile(r"\buse\s+([^\s{;]+)\.\{([^}]*)\}")


def snake(word):
    if word in SPECIAL:
        return SPECIAL[word]
    word = word.replace("-", "_")
    return re.sub(r"(?<=[a-z0-9])([A-Z])", lambda m: "_" + m.group(1).lower(), word)


def is_odd(word):
    if not word or not re.match(r"[a-z]", word):
        return False
    return bool(re.search(r"[a-z0-9]-[a-z0-9]", word) or re.search(r"[a-z0-9][A-Z]", word)) and not re.search(r"[^\w'₀-₉-]", word)


def files(root, ending):
    for folder, dirs, names in os.walk(os.path.join(root, "crates")):
        dirs[:] = sorted(d for d in dirs if d != "out")
        for name in sorted(names):
            if name.endswith(ending):
                yield os.path.join(folder, name)


def is_walk(path):
    return os.path.basename(path) in ("Proof.antt", "Answers.antt", "Invariants.antt")


def read(path):
    with open(path, encoding="utf-8") as f:
        return f.read()


def own_crates(root):
    return {d for d in os.listdir(os.path.join(root, "crates"))}


def definitions(root):
    """The words to respell, each with the files that have it: what a file of specs/ or of lemmas neither imports from the kit nor reads off a record of the kit's."""
    found = collections.defaultdict(set)
    crates = own_crates(root)
    for path in files(root, ".antt"):
        if is_walk(path):
            continue
        text = read(path)
        stay = foreign(text, crates)
        code = USE.sub("", re.sub(r"(?m)(^|\s)--.*$", "", text))
        for m in re.finditer(TOKEN, code):
            word = m.group(0)
            dotted = m.start() > 0 and code[m.start() - 1] == "."
            if is_odd(word) and word not in stay and not (dotted and "-" in word):
                found[word].add(path)
    return found


def is_home(module, crates):
    """Whether a module is a file of specs/ or of lemmas in this repository, and none that the check makes."""
    m = re.match(r"Rattle\.(\w+)\.(?:specs|proofs)\.[A-Z]\w*$", module)
    return bool(m and m.group(1) in crates)


def foreign(text, crates):
    """The words that a file imports from elsewhere than this repository."""
    words = set()
    for m in USE.finditer(text):
        if is_home(m.group(1), crates):
            continue
        words |= {w.strip().split(" as ")[-1] for w in m.group(2).split(",")}
    return words


def home(text, crates):
    """The words that a file imports from this repository's specs and lemmas."""
    words = set()
    for m in USE.finditer(text):
        if is_home(m.group(1), crates):
            words |= {w.strip() for w in m.group(2).split(",")}
    return words


def respell_code(text, names, stay, only=None):
    """Respells the code of an antt text; `only` are the words that turn where they are not behind a dot."""
    out = []
    for part in re.split(r"((?:^|(?<=\s))--[^\n]*)", text, flags=re.M):
        if part.startswith("--"):
            out.append(re.sub(r"[A-Za-z][\w'-]*", lambda m: snake(m.group(0)) if m.group(0) in names and re.search("[a-z0-9][A-Z]", m.group(0)) else m.group(0), part))
            continue

        def turn(m):
            word = m.group(0)
            if word not in names or word in stay:
                return word
            behind = m.start() > 0 and part[m.start() - 1] == "."
            camel = re.search("[a-z0-9][A-Z]", word)
            if only is not None and not camel and (behind or word not in only):
                return word
            return snake(word)

        out.append(re.sub(TOKEN, turn, part))
    return "".join(out)


GHOST = re.compile(r"(?:^|(?<=\s))(?:requires|ensures)\*?(?:\s+\w+)?\s*\{|ghost\s+use\b[^;]*;|ghost\s+(?:\w+\s*)?[:=]?\s*\{|#!?\[tactic[^\]]*\]", re.M)


def ghost_parts(text):
    """The parts of a source file that are antt: clauses and ghost items."""
    at = 0
    while True:
        m = GHOST.search(text, at)
        if not m:
            return
        if not m.group(0).endswith("{"):
            yield m.start(), m.end()
            at = m.end()
            continue
        depth, k = 1, m.end()
        while depth:
            depth += {"{": 1, "}": -1}.get(text[k], 0)
            k += 1
        yield m.end(), k - 1
        at = k


def respell_source(text, names, stay):
    out, at = [], 0
    for start, end in ghost_parts(text):
        out += [text[at:start], respell_code(text[start:end], names, stay)]
        at = end
    return "".join(out) + text[at:]


def settle(names):
    """Of two words with one plain spelling the law, which has dashes, gets another."""
    plain = collections.defaultdict(set)
    for word in names:
        plain[snake(word)].add(word)
    for new, olds in plain.items():
        if len(olds) > 1:
            dashed = [w for w in olds if "-" in w]
            assert len(olds) == 2 and len(dashed) == 1, olds
            SPECIAL[dashed[0]] = new + "_lem"


def respell_laws(path, text):
    for old, new in LAWS.items():
        if path.endswith(".antt"):
            text = re.sub(r"(?<![\w.'-])" + old + r"(?![\w'-]|\.)", new, text)
    return text


def respell_result(path, text):
    old, new, module, file = RESULT
    here = path.endswith(file)
    if not here and not re.search(re.escape(module) + r"\.\{[^}]*\b" + old + r"\b", text):
        return text
    word = r"(?<![\w.'-])" + old + r"(?![\w'-])"
    if path.endswith(".rt"):
        return re.sub(r"ghost use [^;]*;", lambda m: re.sub(word, new, m.group(0)) if module in m.group(0) else m.group(0), text)
    return re.sub(word + ("" if here else r"(?! [=:])"), new, text)


def collisions(root, names, crates):
    said = []
    plain = collections.defaultdict(set)
    for word, where in names.items():
        plain[snake(word)].add(word)
    for new, olds in sorted(plain.items()):
        if len(olds) > 1:
            said.append(f"two words become {new}: {sorted(olds)}")
    for path in list(files(root, ".antt")) + list(files(root, ".rt")):
        text = read(path)
        words = set(re.findall(TOKEN, text))
        stay = foreign(text, crates)
        for word in words & set(names):
            if word not in stay and snake(word) in words:
                said.append(f"{path}: {word} and {snake(word)}")
    return said


def main(argv):
    root = argv[0]
    crates = own_crates(root)
    names = definitions(root)
    settle(names)
    if "--check" in argv:
        print(len(names), "words")
        print("\n".join(collisions(root, names, crates)))
        return
    for path in files(root, ".antt"):
        text = read(path)
        stay = foreign(text, crates)
        new = respell_laws(path, text)
        new = respell_result(path, respell_code(new, names, stay, home(text, crates) if is_walk(path) else None))
        if new != text:
            with open(path, "w", encoding="utf-8") as f:
                f.write(new)
    for path in files(root, ".rt"):
        text = read(path)
        new = respell_result(path, respell_source(text, names, foreign(text, crates)))
        if new != text:
            with open(path, "w", encoding="utf-8") as f:
                f.write(new)


if __name__ == "__main__":
    main(sys.argv[1:])
