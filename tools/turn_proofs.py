#!/usr/bin/env python3
"""Turns each proofs/F/Proof.antt, which walked the code by hand, to Invariants.antt and Answers.antt.

usage: turn_proofs.py FOLDER CRATE NAMES

FOLDER is the repository, NAMES the names.json that `rattle check --generated DIR --old-names` writes for CRATE.
An answer that only searches goes. What a file says beside its goals, its own lemmas, stands in Answers.antt.
A line 'look:' names what it did not understand.
"""
import json
import os
import re
import sys

WORD = r"[^\s(){}\[\],;.:=→×≡⊎«»|]+"


def same(name):
    name = name.replace("_", "-").replace("·", "-").lower()
    name = re.sub(r"-lem$", "", name)
    name = re.sub(r"^overflow-", "", name)
    name = re.sub(r"^slice-bounds-(.*-(?:start|end)(?:-\d+)?)$", r"part-\1", name)
    name = re.sub(r"^array-read-", "element-copy-out-", name)
    return "size-of" if name == "type-size" else name


def blocks(text):
    """The file's items: lines from one that begins at the margin to the next after a blank line."""
    out, here = [], []
    for line in text.split("\n"):
        if line.strip() == "" and here:
            out.append("\n".join(here))
            here = []
        elif line.strip():
            here.append(line)
    if here:
        out.append("\n".join(here))
    # An indented block belongs to the one above it.
    joined = []
    for b in out:
        if joined and b.startswith((" ", "\t")):
            joined[-1] += "\n\n" + b
        else:
            joined.append(b)
    return joined


def arguments(text):
    """The arguments of tie.spec in the last item of a file."""
    at = text.find("tie.spec")
    if at < 0:
        return []
    at += len("tie.spec")
    out, depth, here = [], 0, ""
    while at < len(text):
        ch = text[at]
        if ch == "(":
            depth += 1
        if ch == ")":
            if depth == 0:
                break
            depth -= 1
        if ch.isspace() and depth == 0:
            if here:
                out.append(here)
            here = ""
        else:
            here += ch
        at += 1
    if here:
        out.append(here)
    return out


class Places:
    def __init__(self, names):
        self.needs = names["needs"]
        self.asked_at = names["asked_at"]
        self.places = {}
        self.arms = {}
        for (old, parent, (f, g), callee, _), arm in zip(names["places"], names["arms"]):
            self.places[old] = (parent, f, g)
            self.arms[old] = arm
        self.loops = names["loops"]
        self.changed = names["changed"]

    def at(self, need):
        return self.asked_at[need][0]


def path_of(place, text, places, look):
    """c.before.before.F.rest at a place, as c.G.rest."""
    roots = {"c": place}

    def way(at, parts):
        n = 0
        while n < len(parts) and parts[n] == "before" and at is not None:
            at = places.places[at][0]
            n += 1
        while n < len(parts) and parts[n] == "before":
            n += 1
        return at, parts[n:]

    # let b = c.before.before in: another name of a place
    while True:
        m = re.search(rf"let ({WORD}) = ({'|'.join(map(re.escape, roots))})((?:\.before)*) in\s+", text)
        if not m:
            break
        at, _ = way(roots[m[2]], m[3].split(".")[1:])
        roots[m[1]] = at
        text = text[: m.start()] + text[m.end() :]

    def one(m):
        parts = m[2].split(".")[1:]
        at, parts = way(roots[m[1]], parts)
        if parts and parts[0] in ("args", "requires", "ranges", "well_formed"):
            return ".".join(["c", *parts])
        if at is None:
            look(f"path {m[0]} goes past the start of {place}")
            at = place
        if not parts:
            look(f"path {m[0]} is a place")
            return m[0]
        field, rest = parts[0], parts[1:]
        up = at
        while up and up != "Start":
            parent, old, new = places.places[up]
            if same(old) == same(field):
                arm = places.arms[up]
                if arm:
                    for name, step, prefix in arm[2]:
                        if same(step) == same(field) and rest[: len(prefix)] == prefix:
                            if name.endswith("-own"):
                                continue
                            return ".".join(["c", arm[0], name, *rest[len(prefix) :]])
                return ".".join(["c", new, *rest])
            up = parent
        look(f"path {m[0]}: {at} has {places.places[at][1]}, not {field}")
        return ".".join(["c", *parts])

    text = re.sub(rf"(?<![\w.'-])({'|'.join(map(re.escape, roots))})((?:\.{WORD})+)", one, text)
    # A condition with `!` now says what holds of the value itself.
    text = re.sub(r"not[-_](?:true|false) _ (c\.[\w.'-]+\.(?:true|false))(?![\w.'-])", r"\1", text)
    return text


def main():
    root, crate, names_path = sys.argv[1:4]
    names = json.load(open(names_path, encoding="utf-8"))
    base = os.path.join(root, "crates", crate, "proofs")
    done = 0
    for key, entry in names.items():
        m = re.match(rf"Rattle-{crate}-proofs\.(.*)\.Lts$", key)
        if not m:
            continue
        function = m[1]
        folder = os.path.join(base, *function.split("."))
        proof = os.path.join(folder, "Proof.antt")
        if not os.path.isfile(proof):
            continue
        text = open(proof, encoding="utf-8").read()

        def look(said):
            print(f"look: {crate} {function}: {said}")

        turn(crate, function, folder, proof, text, Places(entry), look)
        done += 1
    print(f"{crate}: {done} turned")


def turn(crate, function, folder, proof, text, places, look):
    path = f"Rattle.{crate}.proofs.{function}"
    head, uses, answers, invariants = [], [], [], []
    loop_new = {same(l[0][0]): l[0][1] for l in places.loops}
    wanted = {}
    for i, (old, new) in enumerate(places.needs):
        wanted.setdefault(same(old), i)
    for b in blocks(text):
        lines = b.split("\n")
        while lines and (lines[0].startswith("--") or lines[0].startswith("use ")):
            line = lines.pop(0)
            if line.startswith("use "):
                if f"{path}.Statement" in line or f"{path}.Tie" in line:
                    continue
                uses.append(line)
            else:
                head.append(("c", line)) if not answers and not invariants else answers.append(line)
        if not lines:
            continue
        b = "\n".join(lines)
        if re.match(r"pub \S+ : (\{\w+ : Type 1\} → )?statement\b", b) or re.match(r"pub \S+[-_]spec\b", b):
            given = arguments(b)
            if len(given) != len(places.needs) + 2 * len(places.loops):
                look(f"{len(given)} arguments for {len(places.needs)} goals")
            opened = [line for line in lines if line.startswith("unfolding ")]
            for (old, new), at, it in zip(places.needs, places.asked_at, given[2 * len(places.loops) :]):
                mm = re.fullmatch(r"\(λ c\.(?: κs\.)?\s(.*)\)", it, re.S)
                if mm and not re.fullmatch(r"search (rules|needs)", mm[1].strip()):
                    body = path_of(at[0], mm[1], places, look)
                    answers.append("\n".join([f"pub {new} : goal.{new}", *opened, f"{new} c = {body}"]))
            continue
        m = re.match(r"(?:abbrev )?(?:pub )?(\S+) : tie\.((?:invariant|decreases)-\S+)\s*$", lines[0])
        if m:
            kind, loop = m[2].split("-", 1)
            new = f"{kind}-{loop_new.get(same(loop), '?' + loop)}"
            rec = next((k for k, l in enumerate(places.loops) if same(l[0][0]) == same(loop)), None)
            if rec is None:
                look(f"loop {loop} is none of {list(loop_new)}")
                continue
            variables, changed = places.loops[rec][1], places.changed[rec]
            body = "\n".join(lines[1:])
            mm = re.match(rf"{re.escape(m[1])}((?: \S+)*?) =(?=\s)", body)
            if not mm:
                look(f"invariant {m[1]} not read: {body[:80]}")
                continue
            formals = mm[1].split()
            actual = [f"l.initial.{v}" if c else f"l.{v}" for v, c in zip(variables, changed)]
            actual += [f"l.{v}" for v, c in zip(variables, changed) if c]
            if len(formals) != len(actual):
                look(f"invariant {m[1]}: {formals} for {actual}")
            to = dict(zip(formals, actual))
            rest = body[mm.end() :]
            rest = re.sub(rf"(?<![\w.'-]){WORD}", lambda t: to.get(t[0], t[0]) if t[0] != "_" else "_", rest)
            invariants.append(f"abbrev pub {new} : goal.{new}\n{new} l ={rest}")
            continue
        m = re.match(r"(?:pub )?(\S+) : tie\.Need-(\S+)(.*)$", lines[0])
        if m:
            name, old = m[1], m[2]
            i = wanted.get(same(old))
            if i is None:
                look(f"goal {old} is none of {[n[0] for n in places.needs]}")
                continue
            new = places.needs[i][1]
            body = "\n".join(lines[1:])
            flat = re.sub(r"\s+", " ", re.sub(r"^unfolding.*\n", "", body))
            if re.fullmatch(rf"{re.escape(name)}( \S+)* = search (rules|needs) ?", flat) and not body.startswith("unfolding"):
                continue
            body = path_of(places.at(i), body, places, look)
            body = re.sub(rf"(?m)^{re.escape(name)}(?= )", new, body)
            body = re.sub(rf"(?m)^({re.escape(new)} c) κs\b", r"\1", body)
            answers.append(f"pub {new} : goal.{new}\n{body}")
            continue
        if "tie." in b:
            look("a lemma names tie: " + lines[0][:100])
        answers.append(b)
    comment = "\n".join(line for _, line in head)

    def imports(body):
        kept = []
        for line in uses:
            names = re.search(r"\{(.*)\}", line)
            if names:
                every = [n.strip() for n in names[1].split(",")]
                some = [n for n in every if used(n, body)]
                if some:
                    kept.append(line[: names.start()] + "{" + ", ".join(some) + "}")
            else:
                alias = line.split()[-1].split(".")[-1]
                if re.search(rf"(?<![\w.'-]){re.escape(alias)}\.", body):
                    kept.append(line)
        return kept

    def used(n, body):
        n = n.split(" as ")[-1].strip()
        if "◌" in n:
            return all(part in body for part in n.split("◌") if part)
        return bool(re.search(rf"(?<![\w'-]){re.escape(n)}(?![\w'-])", body)) or n in ("zero", "suc", "refl", "sym")

    def write(name, module, parts):
        body = "\n\n".join(parts)
        lines = ([comment] if comment else []) + imports(body) + [f"use {path}.{module} as goal", ""]
        with open(os.path.join(folder, name), "w", encoding="utf-8") as f:
            f.write("\n".join(lines) + "\n" + body + "\n")

    os.remove(proof)
    if invariants:
        write("Invariants.antt", "Given", invariants)
    if any("goal." in a for a in answers):
        write("Answers.antt", "Goals", answers)
    if not os.listdir(folder):
        os.removedirs(folder)


main()
