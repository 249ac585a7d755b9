#!/usr/bin/env python3
"""Turns a function's Proof.antt, which lists its goals by hand, into Invariants.antt and Answers.antt.

usage: python3 tools/turn_proofs.py CRATE [FN ..]     at the top of the repository; CRATE's sources must have no errors of their own

It asks `rt check --generated .. --old-names` for each goal's and each step's old and new name. Answers that only say
`search rules` go: the check tries that by itself. What it cannot turn it says, and `rt check` says the rest.
"""

import json
import os
import re
import subprocess
import sys
import tempfile

NAME = r"[^\s(){}\[\];,.\"`@:]+"
SIGNATURE = re.compile(r"^((?:abbrev |unfoldable )*)(pub )?(" + NAME + r") : (.*)$")
CHAIN = re.compile(r"(?<=[\w)₀₁₂₃'])((?:\.[A-Za-z0-9_'-]+)+)")
TOKEN = re.compile(NAME)


def plain(name):
    return name.replace("-", "_")


def goal_key(name):
    return plain(name).removeprefix("overflow_")


class Function:
    def __init__(self, entry, args):
        self.steps = {}
        self.doubtful = set()
        for _, _, (old, new), *_ in entry["places"]:
            if old:
                key = plain(old)
                if self.steps.get(key, new) != new:
                    self.doubtful.add(key)
                self.steps[key] = new
        self.places = {p[0]: new for p, new in zip(entry["places"], entry["places_by_name"])}
        self.goals = {goal_key(old): new for old, new in entry["needs"]}
        self.arms = {}
        for arm in entry["arms"]:
            if arm:
                for new, step, path in arm[2]:
                    self.arms[(plain(step), *path)] = (arm[0], new)
        self.args = args
        self.loops = {}
        for ((old, new), variables), changed in zip(entry["loops"], entry["changed"]):
            self.loops[plain(old)] = (new, variables, changed)

    def chain(self, m):
        fields = [field for field in m.group(1).split(".")[1:] if field != "before"]
        for k in range(len(fields), 1, -1):
            found = self.arms.get((plain(fields[0]), *fields[1:k])) or self.arms.get((plain(fields[0]).lower(), *fields[1:k]))
            if found:
                return "".join("." + field for field in (*found, *fields[k:]))
        if len(fields) > 1 and fields[0] in ("args", "ranges") and re.fullmatch(r"t\d+", fields[1]):
            fields[1] = self.args[int(fields[1][1:]) - 1]
        if fields:
            fields[0] = self.step("well_formed" if fields[0] == "well-formed" else fields[0])
        return "".join("." + field for field in fields)

    def step(self, name):
        key = plain(name)
        if key not in self.steps and "_" in key and key.lower() in self.steps:
            key = key.lower()
        if key not in self.steps and key.rstrip("0123456789") in self.steps:
            key = key.rstrip("0123456789")
        new = self.steps.get(key, name)
        return name if re.fullmatch(re.escape(name) + r"-\d+", new) else new

    def paths(self, text):
        return CHAIN.sub(self.chain, text)


def declarations(text):
    """The head (comments and imports), and each declaration with the comment above it."""
    lines = text.split("\n")
    head, out, now, comment = [], [], None, []
    for line in lines:
        if SIGNATURE.match(line) and not line.startswith(("use ", "--")):
            if now is not None:
                out.append(now)
            now = comment + [line]
            comment = []
        elif line.startswith("--") and (now is not None or head and head[-1] == "" or any(l.startswith("use ") for l in head)):
            comment.append(line)
        elif now is None:
            head.append(line)
        else:
            if comment and line.strip():
                now += comment
                comment = []
            now.append(line)
    if now is not None:
        out.append(now)
    return head, out


def strip(lines):
    while lines and not lines[-1].strip():
        lines = lines[:-1]
    return lines


def inlined(block):
    """Without `let p = c in`, where p stood for what was known some steps before."""
    while m := re.search(r"let (" + NAME + r") = c in\s*", block):
        name = m.group(1)
        block = block[: m.start()] + block[m.end() :]
        block = TOKEN.sub(lambda t: "c" if t.group(0) == name and block[t.start() - 1 : t.start()] != "." else t.group(0), block)
    return block


def turn(path, module, f, said):
    with open(path, encoding="utf-8") as it:
        text = it.read()
    head, decls = declarations(text)
    invariants, kept, names = [], [], {}
    for d in decls:
        k = next(i for i, l in enumerate(d) if SIGNATURE.match(l))
        _, _, name, kind = SIGNATURE.match(d[k]).groups()
        body = strip(d[k + 1 :])
        m = re.match(r"tie\.(invariant|decreases)-(" + NAME + ")", kind)
        if m:
            what, loop = m.groups()
            if plain(loop) not in f.loops:
                said.append(f"{path}: no loop {loop}")
                continue
            new, variables, changed = f.loops[plain(loop)]
            fullname = f"{what}-{new}"
            names[name] = fullname
            whole = "\n".join(body)
            lm = re.match(re.escape(name) + r"((?:\s+" + NAME + r")*)\s*=\s*", whole)
            if not lm:
                said.append(f"{path}: {name} has another form")
                continue
            given = lm.group(1).split()
            rest = whole[lm.end() :]
            wanted = [("initial." if c else "") + v for v, c in zip(variables, changed)] + [v for v, c in zip(variables, changed) if c]
            if len(given) != len(wanted):
                said.append(f"{path}: {name} takes {len(given)} and not {len(wanted)}: {wanted}")
            sub = {g: "l." + w for g, w in zip(given, wanted) if g != "_"}
            # a field of a record that is made keeps its name
            rest = re.sub(r"([{;] )(" + NAME + r") = ", lambda t: f"{t.group(1)}\0{t.group(2)} = ", rest)
            rest = TOKEN.sub(lambda t: sub.get(t.group(0), t.group(0)) if rest[t.start() - 1 : t.start()] != "." else t.group(0), rest)
            rest = rest.replace("\0", "")
            invariants.append((d[:k], what, fullname, rest, [b for b in body if b.startswith("unfolding")]))
            continue
        m = re.match(r"tie\.Need-(" + NAME + ")", kind)
        if m:
            key = goal_key(m.group(1))
            if key not in f.goals:
                said.append(f"{path}: no goal {m.group(1)}")
                new = m.group(1)
            else:
                new = f.goals[key]
            names[name] = new
            clause = " ".join(l.strip() for l in body)
            if re.fullmatch(re.escape(name) + r"(?: \S+)* = search rules", clause):
                continue
            kept.append((d[:k], new, body))
            continue
        if any("tie.close" in l for l in body) or "statement" in kind:
            continue
        # a helper of its own, which is no goal
        kept.append((d[:k], None, d[k:]))
    out = []
    for above, new, body in kept:
        block = "\n".join(strip(body))
        block = re.sub(r"\btie\.(" + NAME + r")((?: (?:invariant|decreases)-" + NAME + ")*)", lambda m: "goal." + f.places.get(m.group(1), m.group(1)), block)
        block = f.paths(block)
        block = TOKEN.sub(lambda t: names.get(t.group(0), t.group(0)) if block[t.start() - 1 : t.start()] != "." else t.group(0), block)
        block = inlined(block)
        # a test `if !x` is told of x, and an array's length is found by itself
        block = re.sub(r"\bnot-(?:true|false) _ (c\.if-not-[\w-]+\.(?:true|false))", r"\1", block)
        block = re.sub(r"\bap not \(sym (c\.[\w.-]+)\) ∙ (c\.if-not-[\w-]+\.(?:true|false))", r"ap not (sym \1 ∙ \2)", block)
        block = re.sub(r"\bc\.in_default\.rest\b", "c.in_default.in_default-own.rest", block)
        block = re.sub(r"\bsym \(length-map [\w.()]+ _\) ∙ [\w().]*\.well_formed(?:\.\d+)+", "omega arith", block)
        if new:
            block = re.sub("^" + re.escape(new) + r" (\S+) κs", lambda m: f"{new} {m.group(1)}", block, flags=re.M)
            block = f"pub {new} : goal.{new}\n{block}"
        out.append("\n".join([*above, block]))
        for key in f.doubtful:
            if re.search(r"\." + re.escape(f.steps[key]) + r"\b", block):
                said.append(f"{path}: which step is {key}?")
    comment = [l for l in head if l.startswith("--")]
    uses = [l for l in head if l.startswith("use ") and ".Statement" not in l and " as tie" not in l]
    stem = f"Rattle.{module}"
    folder = os.path.dirname(path)
    if invariants:
        lines = list(comment) + uses + [f"use {stem}.Given as goal", ""]
        for above, what, fullname, rest, unfolding in invariants:
            lines += [*above, f"abbrev pub {fullname} : goal.{fullname}", *unfolding, f"{fullname} l = {rest}", ""]
        with open(os.path.join(folder, "Invariants.antt"), "w", encoding="utf-8") as it:
            it.write("\n".join(strip(lines)) + "\n")
    if out:
        lines = list(comment) + uses + [f"use {stem}.Goals as goal", ""]
        with open(os.path.join(folder, "Answers.antt"), "w", encoding="utf-8") as it:
            it.write("\n".join(lines) + "\n" + "\n\n".join(out) + "\n")
    os.remove(path)


def parameters(where, inner):
    """The names of a function's parameters, in order."""
    name = inner.split(".")[-1]
    texts = [open(os.path.join(a, f), encoding="utf-8").read() for a, _, fs in os.walk(os.path.join(where, "src")) for f in sorted(fs)]
    for text in texts:
        m = re.search(r"fn " + re.escape(name) + r"\(([^)]*)\)", text)
        if m:
            return [re.sub(r"^(mut )?&?(mut )?", "", p.strip()).split(":")[0].strip() for p in m.group(1).split(",") if p.strip()]
    return []


def main(crate, only):
    where = os.path.join("crates", crate)
    with tempfile.TemporaryDirectory() as d:
        r = subprocess.run(["rt", "check", "--generated", os.path.join(d, "g"), "--old-names"], cwd=where, capture_output=True, text=True)
        made = os.path.join(d, "g", "names.json")
        if not os.path.exists(made):
            print(r.stdout[-3000:] + r.stderr[-2000:])
            return 1
        with open(made) as it:
            entries = json.load(it)
    said = []
    for module, entry in sorted(entries.items()):
        # Rattle-bank-proofs.first_fit.Lts
        inner = module.removeprefix(f"Rattle-{crate}-proofs.").removesuffix(".Lts")
        if only and inner not in only:
            continue
        path = os.path.join(where, "proofs", *inner.split("."), "Proof.antt")
        if not os.path.exists(path):
            continue
        if "tie" not in open(path, encoding="utf-8").read():
            continue
        turn(path, f"{crate}.proofs.{inner}", Function(entry, parameters(where, inner)), said)
    print("\n".join(said))
    left = [os.path.join(a, "Proof.antt") for a, _, fs in os.walk(os.path.join(where, "proofs")) if "Proof.antt" in fs]
    print("left:", *left)
    return 0


if __name__ == "__main__":
    raise SystemExit(main(sys.argv[1], sys.argv[2:]))
