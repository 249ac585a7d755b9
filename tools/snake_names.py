#!/usr/bin/env python3
"""Brings the names that this repository's specs/ and proofs/ declare to today's spelling: words in snake case.

usage: python3 tools/snake_names.py [--list]     at the top of a repository that port.py has turned

A definition, lemma, field or constructor `someName` or `some-name` becomes `some_name`, wherever it stands in crates/: in
specs/, proofs/, the contracts of src/ and must-fail edits. Types, modules, Rust's names, strings and the names of goals stay;
pages are left, and a string of several lines, whose words are turned, is looked at by hand. It refuses to run where two names
would fall together, or a new name stands already in a file that has the old one.
"""

import os
import re
import sys

ROOT = "crates"
OWN = tuple(f"Rattle.{crate}." for crate in os.listdir(ROOT))
WORD = r"[^\s(){}\[\];,.\"`@:]+"
DECLARED = re.compile(r"^\s*(?:abbrev |unfoldable )*(?:pub )?(" + WORD + r") : ", re.M)
STRING = re.compile(r'"(?:[^"\\\n]|\\.)*"')
TOKEN = re.compile(WORD)
USED = re.compile(r"^(?:ghost )?use ([^\s{]+)\.\{([^}]*)\}", re.M)
# Names that would fall together with another's: the definition has the plain one, and a law about it says so.
OTHERS = {"linesFit": "all_lines_fit", "open_done": "open_done_law", "held-of": "held_of_law", "row-at": "row_at_law"}
LAWS = "after-all block-done block-says by-tail clip-at comes-round drain-done four-adds free-slot is-kept is-more is-passed is-stinger land-in load-done load-refused loop-fits minus-zero no-clip over-adds past-clip pump-done pump-refused replay-done ring-ok row-held says-salvage slot-named song-share sooner-by stop-refused submit-refused tail-adds tail-on turned-away with-stores wrap-in holds-row dry-run"
OTHERS |= {name: name.replace("-", "_") + "_law" for name in LAWS.split()}


def snake(name):
    if name in OTHERS:
        return OTHERS[name]
    if not re.match(r"^[a-z]", name) or "◌" in name:
        return name
    turned = re.sub(r"(?<=[a-z0-9])([A-Z])", r"_\1", name.replace("-", "_")).lower()
    return turned.replace("′", "'")


def read(path):
    with open(path, encoding="utf-8") as f:
        return f.read()


def files():
    for folder, dirs, names in os.walk(ROOT):
        dirs[:] = sorted(d for d in dirs if d not in ("out", "data"))
        for name in sorted(names):
            if name.endswith((".antt", ".rt", ".edit")):
                yield os.path.join(folder, name)


def own_names(paths):
    found = {}
    for path in paths:
        if not path.endswith(".antt"):
            continue
        for name in DECLARED.findall(read(path)):
            if name.startswith("let"):
                continue
            found.setdefault(name, set()).add(path)
        # what an import is called here, and names that a pattern or a binder has
        for name in TOKEN.findall(read(path)):
            if re.match(r"^[a-z][a-z0-9]*([A-Z][a-z0-9]*)+$", name):
                found.setdefault(name, set()).add(path)
    return found


def goals(paths):
    """The names of goals, which the check makes: they stay."""
    found = set()
    for path in paths:
        if os.path.basename(path) == "Proof.antt":
            for line in read(path).split("\n"):
                m = re.match(r"^\s*(?:abbrev |unfoldable )*(?:pub )?(" + WORD + r") : (?:\{.*\} → )?(?:tie\.|statement)", line)
                if m:
                    found.add((path, m.group(1)))
    return found


def main():
    paths = list(files())
    names = own_names(paths)
    made = goals(paths)
    turned = {}
    for name, where in names.items():
        if all((path, name) in made for path in where):
            continue
        if snake(name) != name:
            turned[name] = snake(name)
    clashes = []
    back = {}
    for name, new in sorted(turned.items()):
        if new in back:
            clashes.append(f"{name} and {back[new]} would both be {new}")
        back[new] = name
    tokens = {path: {m.group(0) for m in TOKEN.finditer(text) if text[m.start() - 1 : m.start()] != "."} for path in paths for text in [read(path)]}
    for name, new in sorted(turned.items()):
        # a function's own proof names its folder after the function
        both = [path for path in paths if name in tokens[path] and new in tokens[path] and path.endswith(".antt") and new not in path.split("/") and new not in turned]
        if both:
            clashes.append(f"{name}: {new} stands already in {both[0]} and {len(both) - 1} more")
    if "--list" in sys.argv:
        print("\n".join(f"{a} {b}" for a, b in sorted(turned.items())))
    if clashes:
        print("\n".join(clashes), file=sys.stderr)
        return 1
    if "--list" in sys.argv:
        return 0
    # the same word may be a goal's name in a function's own proof: there it stays where it is declared as one
    for path in paths:
        text = read(path)
        kept = {name for (p, name) in made if p == path}

        # after a dot stands a field of a record, the check's own among them, and no law
        def word(m):
            w = m.group(0)
            if w not in turned or w in kept:
                return w
            return turned[w].removesuffix("_law") if m.string[m.start() - 1 : m.start()] == "." else turned[w]

        # what the file takes from the library keeps the library's name
        kept |= {name for module, names in USED.findall(text) if not module.startswith(OWN) for name in re.split(r"[,\s]+", names)}

        def part(piece):
            return TOKEN.sub(word, piece)

        out, at = [], 0
        if path.endswith(".rt"):
            for m in STRING.finditer(text):
                out += [part(text[at : m.start()]), m.group(0)]
                at = m.end()
        out.append(part(text[at:]))
        new = "".join(out)
        if new != text:
            with open(path, "w", encoding="utf-8") as f:
                f.write(new)
    return 0


if __name__ == "__main__":
    raise SystemExit(main())
