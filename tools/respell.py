#!/usr/bin/env python3
"""Brings the repository's own definitions and lemmas to snake case, once, after Rattle's port.py.

usage: respell.py [--dry] FOLDER

It turns names that .antt files below FOLDER/crates declare: firstEvent becomes first_event, total-more becomes total_more.
Types, facts and modules keep their capitals. A name that a file imports from a library keeps its spelling there, and so does
a goal's name in a function's proof. In .rt files it turns ghost imports and clauses, never a string; in must-fail/ nothing.
--dry prints the names that fall together, and writes nothing.
"""
import collections
import os
import re
import sys

WORD = r"[^\s(){}\[\],;.:=→×≡⊎«»|]+"
TOKEN = re.compile(WORD)
CAMEL = re.compile(r"[a-z][A-Za-z0-9_']*")
# Lemmas that port.py turned to snake case already, and that a definition in camel case would fall together with: the file, the name.
LEMMAS = {
    "after_line": ["grammar/proofs", "compiler/proofs", "capi/proofs", "tables/proofs"],
    "asks_set": ["roundtrip/proofs"],
    "bits_met": ["modifiers/proofs", "filter/proofs"],
    "call_ok": ["table_check/proofs/Checked"],
    "header_ok": ["table_check/proofs/Checked"],
    "digit_value": ["roundtrip/proofs/Numbers"],
    "go_on": ["tables/proofs", "capi/proofs"],
    "is_mapped": ["roundtrip/proofs/Names"],
    "keys_from": ["grammar/proofs/KeySequences"],
    "left_step": ["event_scanner/proofs", "lines/proofs"],
    "one_line": ["grammar/proofs"],
    "pair_matches": ["keyboard/proofs"],
    "put_one": ["merger/proofs/Images"],
    "put_whole": ["compiler/proofs/Appended"],
    "written_in": ["judge/proofs"],
}
OWN = re.compile(r"Rattle\.(\w+)\.")
LIBRARY = {"std", "core", "std_alloc", "std_collections", "std_heap", "std_io", "io", "libc", "os"}


def below(folder, ending):
    for top, dirs, files in os.walk(folder):
        dirs[:] = sorted(d for d in dirs if d not in ("out", "target", ".git"))
        for f in sorted(files):
            if f.endswith(ending):
                yield os.path.join(top, f)


def read(path):
    with open(path, encoding="utf-8") as f:
        return f.read()


def bare(text):
    return re.sub(r"--.*", "", text)


# Names of lemmas that would have a definition's name: these get _lem.
TWINS = set()


def turned(name):
    lemma = "_lem" if name in TWINS else ""
    name = re.sub(r"(?<=[A-Za-z0-9_'])-(?=[A-Za-z0-9_'])", "_", name)
    if CAMEL.fullmatch(name):
        name = re.sub(r"(?<=[a-z0-9'])([A-Z])", lambda m: "_" + m[1].lower(), name)
        name = re.sub(r"([A-Z])", lambda m: m[1].lower(), name)
    return name + lemma


def is_turned(name):
    """A name in lower camel case, or one that dashes join and that begins in lower case."""
    if not re.match(r"[a-z]", name):
        return False
    if CAMEL.fullmatch(name) and re.search(r"[A-Z]", name):
        return True
    return bool(re.search(r"[A-Za-z0-9_']-[A-Za-z0-9_']", name))


DECLARED = re.compile(
    rf"(?:^|[({{\[|])[ \t]*(?:(?:pub|abbrev|unfoldable|record|instance|where|let)[ \t]+)*({WORD}(?:[ \t]+{WORD})*)(?:[ \t]+[({{][^=\n]*[)}}])*[ \t]*:(?=\s)", re.M
)
GOAL = re.compile(r"^(\S+) : tie\.(?:Need-\S+|invariant-\S+|decreases-\S+)", re.M)
SPEC = re.compile(r"^pub (\S+-spec) : ", re.M)


def declared(text):
    t = bare(text)
    names = set()
    for m in DECLARED.finditer(t):
        names.update(m[1].split())
    for m in re.finditer(rf"\blet ({WORD}) =", t):
        names.add(m[1])
    return names


def goals(path, text):
    if os.path.basename(path) not in ("Proof.antt", "Answers.antt", "Invariants.antt"):
        return set()
    names = set(GOAL.findall(text)) | set(SPEC.findall(text))
    names |= set(re.findall(r"^(?:abbrev )?(\S+) : tie\.", text, re.M))
    return names


def imports(text):
    """The names that a file takes from the libraries."""
    names = set()
    for m in re.finditer(r"^[ \t]*(?:(?:pub|ghost|unfoldable)[ \t]+)*use[ \t]+([^\s{;]+?)(?:\.\{([^}]*)\}|[ \t]+as[ \t]+(\S+))?;?[ \t]*$", text, re.M):
        own = OWN.match(m[1])
        if own and own[1] not in LIBRARY:
            continue
        for it in (m[2] or "").split(","):
            parts = it.split()
            if parts:
                names.add(parts[-1])
                names.add(parts[0])
    return names


def main():
    words = [w for w in sys.argv[1:] if not w.startswith("--")]
    dry = "--dry" in sys.argv
    root = words[0]
    crates = os.path.join(root, "crates")
    texts = {p: read(p) for p in below(crates, ".antt")}
    own = set()
    for p, t in texts.items():
        own |= {n for n in declared(t) - goals(p, t) if is_turned(n)}
    known = collections.defaultdict(set)
    for p, t in texts.items():
        for n in declared(t) - goals(p, t) - imports(t):
            known[turned(n) if n in own else n].add(n)
        for n in imports(t):
            known[n].add(n)
    for olds in known.values():
        if len(olds) > 1:
            TWINS.update(n for n in olds if n in own and "-" in n)
    if dry:
        for new, olds in sorted(known.items()):
            if len(olds) > 1:
                print(new, sorted(olds))
        return

    def antt(path, text):
        keep = imports(text) | goals(path, text)
        short = path[len(crates) + 1 :]
        lemmas = {n for n, where in LEMMAS.items() if short.startswith(tuple(where))}
        out = []
        for line in text.splitlines(keepends=True):
            code, dashes, comment = line.partition("--")
            hidden = imports(code) if re.match(r"\s*(?:pub )?use ", code) else set()

            def one(m):
                n = m[0]
                before = code[: m.start()]
                field = before.endswith(".")
                if n in lemmas and not field:
                    return n + "_lem"
                if n not in own or n in keep or n in hidden:
                    return n
                # What Rattle makes: the steps of a function's proof, and its goals.
                if field and "-" in n and re.search(r"(?:^|[\s(,←])(?:c|d|tie)(?:\.[^\s(),]+)*\.$", before):
                    return n
                return turned(n)

            out.append(TOKEN.sub(one, code) + dashes + comment)
        return "".join(out)

    def rt(path, text):
        keep = imports(text)
        out = []
        for line in text.splitlines(keepends=True):
            parts = re.split(r'("(?:[^"\\]|\\.)*"|//.*)', line)
            for i in range(0, len(parts), 2):
                parts[i] = TOKEN.sub(lambda m: turned(m[0]) if m[0] in own and m[0] not in keep and (CAMEL.fullmatch(m[0]) or "ghost" in line or re.match(r"\s*(requires|ensures)", line)) else m[0], parts[i])
            out.append("".join(parts))
        return "".join(out)

    n = 0
    for p, t in texts.items():
        new = antt(p, t)
        if new != t:
            n += 1
            with open(p, "w", encoding="utf-8") as f:
                f.write(new)
    for p in below(crates, ".rt"):
        t = read(p)
        new = rt(p, t)
        if new != t:
            n += 1
            with open(p, "w", encoding="utf-8") as f:
                f.write(new)
    print(f"respell: {len(own)} names, {n} files")


main()
