#!/usr/bin/env python3
"""Brings this repository's own definitions and lemmas to the library's spelling: words in snake case, and `'` for a prime. Run it once, at
the top, right after the kit's port.py; it prints what it renamed and what falls together.

    python3 tools/respell.py [--dry]

Names are renamed where they are this repository's: a name declared in specs/ or in a lemma file of proofs/, in that file, in the files
that import it from one of our crates, as a field or constructor after a dot, and in the clauses of src/. Types keep their capitals, and so
do functions of src/, strings and whatever a generated module names. Answers' files (Proof.antt) have names renamed, but none of their own.
"""
import collections
import os
import re
import sys

DRY = "--dry" in sys.argv
TOKEN = re.compile(r"[^\s(){}\[\]:;,.\"«»⌜⌝λ∷=|`]+")
DECLARED = re.compile(r"^\s*(?:(?:abbrev|unfoldable|pub|data|record|private)\s+)*([^\s(){}:;,.\"]+)((?:\s*[({][^(){}]*(?:[({][^(){}]*[)}][^(){}]*)*[)}])*)\s*:\s")
IMPORT = re.compile(r"^\s*(?:pub )?(?:ghost )?use ([^\s{;]+)\.\{([^}]*)\}")
GENERATED = re.compile(r"^(in|if|then|else|loop|match|returns|bounds|slice_bounds|overflow\w*|invariant|decreases|Need)-")

# where two names fall together, and neither is a lemma
APART = {"bad-id": "by_bad_id", "is-time": "is_time_row", "no-time": "no_time_row", "of-text": "of_text_verb"}

# a lemma of ours whose name would be that of a function of the library, which its file imports
LIBRARY = {"bit-or": "bit_or_lem"}


def texts(root, ends):
    for folder, dirs, files in os.walk(os.path.join(root, "crates")):
        dirs[:] = sorted(d for d in dirs if d != "out")
        for f in sorted(files):
            if f.endswith(ends):
                yield os.path.join(folder, f)


def is_answers(path):
    return os.path.basename(path) == "Proof.antt"


def snake(word):
    return re.sub(r"_+", "_", re.sub(r"(?<=[a-z0-9])([A-Z]+)(?=[A-Z][a-z])|(?<=[a-z0-9])([A-Z]+)", lambda m: "_" + (m.group(1) or m.group(2)), word)).lower()


def is_camel(word):
    return bool(re.match(r"^[a-z][A-Za-z0-9']*$", word)) and bool(re.search(r"[A-Z]", word))


def part_of(word):
    return snake(word) if is_camel(word) else word


def respelt(name):
    if "◌" in name or not re.match(r"^[A-Za-z]", name):
        return name
    return "_".join(part_of(p) for p in name.replace("′", "'").split("-"))


def main():
    root = "."
    crates = sorted(os.listdir(os.path.join(root, "crates")))
    declared = collections.defaultdict(set)
    for path in texts(root, ".antt"):
        if is_answers(path):
            continue
        for line in open(path, encoding="utf-8"):
            m = DECLARED.match(line)
            if m and not line.lstrip().startswith(("--", "let ", "where")):
                declared[m.group(1)].add(path)
            m = re.match(r"^\s*(?:pub )?(?:data|record) ([^\s(){}:]+)", line)
            if m:
                declared[m.group(1)].add(path)
    turned = {}
    for name in declared:
        new = respelt(name)
        if new != name:
            turned[name] = new
    turned.update({o: n for o, n in LIBRARY.items() if o in declared})
    # what falls together, in one file or where one of the two is asked to stand apart
    together = collections.defaultdict(set)
    for path in list(texts(root, ".antt")) + list(texts(root, ".rt")):
        for word in set(TOKEN.findall(open(path, encoding="utf-8").read())):
            together[word].add(path)
    news = collections.defaultdict(set)
    for name in declared:
        news[turned.get(name, name)].add(name)
    for new, olds in sorted(news.items()):
        if len(olds) > 1:
            in_specs = sorted(o for o in olds if any("/specs/" in p for p in declared[o]))
            keeps = [o for o in in_specs if is_camel(o)] or in_specs or sorted(o for o in olds if "-" not in o)
            for o in sorted(olds):
                if o != keeps[0] and (o in APART or together[o] & together[keeps[0]] or declared[o] & declared[keeps[0]]):
                    turned[o] = APART.get(o, new + "_lem")
            print("falls together:", new, "<-", keeps[0], "; ", ", ".join(o + " -> " + turned.get(o, o) for o in sorted(olds) if o != keeps[0]))
    fields = set()  # fields and constructors of records in specs/, which stand before = where a record is made
    for path in texts(root, ".antt"):
        if "/specs/" in path:
            for line in open(path, encoding="utf-8"):
                m = DECLARED.match(line)
                if m and line.startswith(" "):
                    fields.add(m.group(1))
    for path in list(texts(root, ".antt")) + list(texts(root, ".rt")):
        text = open(path, encoding="utf-8").read()
        mine = {n for n in turned if path in declared[n]}
        foreign = set()
        for line in text.split("\n"):
            m = IMPORT.match(line)
            if not m:
                continue
            module = m.group(1)
            names = [w.strip() for w in m.group(2).split(",")]
            here = any(module.startswith("Rattle." + c + ".") or module == "Rattle." + c for c in crates)
            for w in names:
                for one in w.split(" as "):
                    one = one.strip()
                    if one in turned:
                        (mine if here else foreign).add(one)
        foreign -= mine

        def swap(m):
            word = m.group(0)
            if word not in turned:
                return word
            before = text[max(0, m.start() - 1):m.start()]
            if before == ".":
                return word if GENERATED.match(word) and word not in fields else turned[word]
            if word in foreign:
                return word
            is_field = word in fields and re.match(r"\s*=(?!=)", text[m.end():m.end() + 3]) and not text[:m.start()].rstrip().endswith("let")
            if word in mine or is_field or is_camel(word):
                return turned[word]
            return word

        # strings stay as they are
        strings = [m.span() for m in re.finditer(r"\"(?:[^\"\\\n]|\\.)*\"", text)]
        out = []
        at = 0
        for start, end in strings + [(len(text), len(text))]:
            for m in TOKEN.finditer(text, at, start):
                out += [text[at:m.start()], swap(m)]
                at = m.end()
            out.append(text[at:end])
            at = end
        done = "".join(out)
        if done != text:
            # a new name that stood in the file before may be caught
            before_words = set(TOKEN.findall(text))
            for n in mine:
                if turned[n] in before_words and turned[n] not in declared:
                    print("stood there before:", path, n, "->", turned[n])
            if not DRY:
                with open(path, "w", encoding="utf-8") as f:
                    f.write(done)
    with open(os.path.join(root, "tools", "respelt.txt"), "w", encoding="utf-8") as f:
        for n in sorted(turned):
            f.write(n + " " + turned[n] + "\n")
    print(len(turned), "names respelt")


main()
