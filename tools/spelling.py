#!/usr/bin/env python3
"""Spells the repository's own definitions, lemmas and record fields in snake case, as today's Rattle does.

usage: tools/spelling.py [--check]      in the repository's top folder

What is renamed: each name that begins with a lower-case letter, is declared in a crate's specs/ or proofs/ (a definition, a lemma, a local
one below `where`, a field of a record, a constructor) and has a dash or an inner capital. Types and modules keep their names, and so do
names of the library, of src/ and of what Rattle makes. In comments and papers a name is turned where it stands between backquotes.
It is run once, on the commit that port.py makes. --check lists names that would fall together, and writes nothing.
"""
import glob
import re
import sys

WORD = r"[^\s(){}.;,@\"«»\[\]\\`]+"
TOKEN = re.compile(r"--[^\n]*|//[^\n]*|" + WORD)


def read(path):
    with open(path, encoding="utf-8") as it:
        return it.read()


def snake(name):
    name = re.sub(r"(?<=[a-z0-9])([A-Z])", lambda it: "_" + it[1].lower(), name)
    return name.replace("-", "_")


def turns(name):
    return re.match(r"[a-z]", name) and re.search(r"-|[a-z0-9][A-Z]", name)


def declared(text):
    """The names that a file of specs/ or proofs/ declares."""
    out = set()
    for line in text.splitlines():
        if line.lstrip().startswith(("--", "use ", "let ", "λ")):
            continue
        found = re.match(r"\s*(?:(?:abbrev|unfoldable|pub) )*([a-z][^\s(){}.;,@\"«»\[\]\\`:]*) : ", line)
        if found:
            out.add(found[1])
        found = re.match(r"\s*module ([a-z][^\s(){}.;,]*) ", line)
        if found:
            out.add(found[1])
    return out


def foreign(text):
    """The names that a file imports from elsewhere than the repository's crates."""
    out = set()
    for line in re.findall(r"(?m)^(?:ghost )?(?:pub )?use [^\n]*", text):
        crate = re.search(r"use Rattle\.(\w+)\.", line)
        if crate and crate[1] in CRATES:
            continue
        names = re.search(r"\{([^}]*)\}", line)
        if names:
            for it in names[1].split(","):
                out.add(it.split(" as ")[-1].strip())
    return out


CRATES = {it.split("/")[1] for it in glob.glob("crates/*/src")}


def main():
    check = "--check" in sys.argv[1:]
    own = glob.glob("crates/*/specs/**/*.antt", recursive=True) + glob.glob("crates/*/proofs/*.antt")
    table = {}
    for path in own:
        for name in declared(read(path)):
            if turns(name):
                table[name] = snake(name)
    paths = sorted(own + glob.glob("crates/*/proofs/*/**/*.antt", recursive=True) + glob.glob("crates/*/src/**/*.rt", recursive=True) + glob.glob("crates/*/must-fail/*.edit"))
    # Where a definition and a lemma about it would fall together, the lemma is called the definition's law.
    texts = {path: read(path) for path in paths}
    plain = {name for path in own for name in declared(texts[path]) if not turns(name)}
    camel = {new for name, new in table.items() if "-" not in name}
    elsewhere = {name for path in paths for name in foreign(texts[path])}
    for name in [it for it in table if "-" in it]:
        if table[name] in camel | plain | elsewhere:
            table[name] += "_law"
    laws = {name for path in own if "/proofs/" in path for name in declared(texts[path]) if name in camel}
    law_of = {}
    for path in paths:
        cited = {it.strip() for names in re.findall(r"use Rattle\.\w+\.proofs\.[\w.]+\.\{([^}]*)\}", texts[path]) for it in names.split(",")}
        here = declared(texts[path]) if path in own and "/proofs/" in path else set()
        law_of[path] = {name: name + "_law" for name in laws & (cited | here)}
    together = {}
    for name, new in table.items():
        together.setdefault(new, set()).add(name)
    for new, names in sorted(together.items()):
        if len(names) > 1:
            print("two names, one spelling:", new, sorted(names))
    for path in paths:
        text = read(path)
        keep = foreign(text)
        words = set(re.findall(WORD, re.sub(r"--[^\n]*|//[^\n]*", "", text)))
        for name in sorted(words & set(table)):
            if name not in keep and table[name] in words and table[name] != name:
                print(f"{path}: {name} -> {table[name]}, which stands there too")
        if check:
            continue

        def quoted(comment):
            return re.sub(r"`(" + WORD + r")`", lambda it: "`" + table.get(it[1], it[1]) + "`", comment)

        def one(found):
            word = found[0]
            if word.startswith(("--", "//")):
                return re.sub(r"\b[a-z]+[A-Z]\w*\b", lambda it: table.get(it[0], it[0]), quoted(word))
            if word in keep:
                return word
            if word in law_of[path] and text[found.start() - 1] != ".":
                return law_of[path][word]
            return table.get(word, word)

        new = TOKEN.sub(one, text)
        if new != text:
            with open(path, "w", encoding="utf-8") as it:
                it.write(new)
    if check:
        return
    for path in ["README.md"] + glob.glob("docs/*.md") + ["oracle/README.md", "fuzz/README.md", "bindings/rust/README.md"]:
        text = read(path)

        def within(found):
            return re.sub(WORD, lambda it: table.get(it[0], it[0]), found[0])

        new = re.sub(r"`[^`\n]*`", within, text)
        if new != text:
            with open(path, "w", encoding="utf-8") as it:
                it.write(new)
    print(len(table), "names")


main()
