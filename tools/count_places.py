#!/usr/bin/env python3
"""Counts, in the code of every crate, the places of docs/DESIGN-PASS.md. Run it at the top: tools/count_places.py [POINT] lists the
places of a point; with no argument it prints how many there are of each kind. It reads text, so what it finds is where to look."""
import collections
import glob
import re
import sys

FILES = sorted(glob.glob("crates/*/src/*.rt"))
COMMENT = re.compile(r"//.*")


def lines():
    for path in FILES:
        for n, line in enumerate(open(path, encoding="utf-8").read().split("\n"), 1):
            if re.match(r"\s*(ghost use|//)", line):
                continue
            yield f"{path.removeprefix('crates/')}:{n}", COMMENT.sub("", line)


def grep(pattern):
    return [(place, line.strip()) for place, line in lines() if re.search(pattern, line)]


def functions():
    """Each function: place, name, signature, requires, body."""
    for path in FILES:
        text = open(path, encoding="utf-8").read()
        for m in re.finditer(r"^( *)(?:pub )?(?:extern \"C\" )?fn (\w+)", text, re.M):
            indent = m.group(1)
            end = re.search(r"^" + indent + r"\}$", text[m.start():], re.M)
            if not end:
                continue
            whole = text[m.start():m.start() + end.end()]
            opening = re.search(r"^" + indent + r"\{$|(?<=\S) \{$", whole, re.M)
            if not opening:
                continue
            yield (f"{path.removeprefix('crates/')}:{text.count(chr(10), 0, m.start()) + 1}", m.group(2),
                   whole[:opening.start()], whole[opening.end():])


def enums():
    """Own enums with a case for nothing or for a refusal beside others."""
    out = []
    for path in FILES:
        text = re.sub(r"//[^\n]*", "", open(path, encoding="utf-8").read())
        for m in re.finditer(r"^(?:pub )?enum (\w+) \{(.*?)^\}", text, re.M | re.S):
            cases = re.findall(r"^    (\w+)", m.group(2), re.M)
            gone = [c for c in cases if c in ("Broken", "Absent", "Nothing", "Nowhere", "Unknown", "Unspecified", "Empty", "No", "None") or c.startswith("Refuse")]
            if gone:
                out.append((path.removeprefix("crates/"), m.group(1) + ": " + ", ".join(cases)))
    return out


def index_loops():
    out = []
    for place, name, _, body in functions():
        for m in re.finditer(r"while ([^{]*)\{", body):
            rest = body[m.end():]
            for v in re.findall(r"\b[a-z]\w*\b", m.group(1)):
                if re.search(r"\b" + v + r" (\+|-)= ", rest):
                    out.append((place, f"{name}: while {m.group(1).strip()}"))
                    break
    return out


KEYWORDS = {"if", "else", "while", "for", "in", "let", "mut", "return", "match", "loop"}


def twins():
    """Functions whose bodies, of sixteen words and signs at least, are the same but for names and constants."""
    groups = collections.defaultdict(list)
    for place, name, _, body in functions():
        b = re.sub(r"b'.'|b\"[^\"]*\"", "0", COMMENT.sub("", body))
        words = re.findall(r"\w+|[^\w\s]", b)
        words = [w if w in KEYWORDS or not re.match(r"\w", w) else "0" if w[0].isdigit() else "v" for w in words]
        words = [w for i, w in enumerate(words) if not (w == "," and words[i + 1:i + 2] and words[i + 1] in ")}]")]
        if len(words) >= 16:
            groups[" ".join(words)].append((place, name))
    return [(ps[0][0], ", ".join(n for _, n in ps)) for ps in groups.values() if len(ps) > 1]


FACTS = {
    "a table's bytes are long enough": r"table_length ≤ length",
    "bytes are a whole table": r"whole \w+\.now ≡ true",
    "the maps are ready": r"MapsReady|map_numbers maps\.now\) ≡ 496",
    "an event stretch can be walked": r"WalkReady",
    "a table's texts are long enough": r"WriteReady",
    "a place lies in the line": r"at ≤ length l\.now",
    "totals are in range": r"TotalsIn|TallyRoom|TallyBelow",
    "a list is in range": r"SummaryIn|AddedIn|SlotsIn",
    "an event is in range": r"EventRanges",
    "a place in the output is small": r"at ≤ \d{10}",
    "slots of events are 200 bytes": r"length events\.now ≡ 200",
}
TOGETHER = {
    "table and maps": r"table: &\[u8\],\s*maps: &\[u8\]",
    "events, from and to": r"events: &\[u8\],\s*from: usize,\s*to: usize",
    "output and place": r"out: &mut \[u8\],\s*at: usize",
    "line and place": r"l: &\[u8\],\s*at: usize",
    "two texts": r"first: &\[u8\],\s*second: &\[u8\]|first: &'a \[u8\],\s*second: &'a \[u8\]",
    "set and clear": r"set: u16,\s*clear: u16",
    "Shift and Lock": r"shift: bool,\s*lock: bool",
    "start and end": r"start: usize,\s*end: usize",
    "kept, selected and open": r"kept: usize,\s*selected: usize,\s*open: bool",
}


def facts():
    out = []
    for name, pattern in FACTS.items():
        found = [place for place, _, sig, _ in functions() if re.search(pattern, " ".join(re.findall(r"requires.*", sig)))]
        if len(found) > 2:
            out.append((f"{len(found)} contracts", name))
    for name, pattern in TOGETHER.items():
        found = [place for place, _, sig, _ in functions() if re.search(pattern, sig)]
        if len(found) > 2:
            out.append((f"{len(found)} signatures", name))
    return out


def answers():
    n = 0
    for path in glob.glob("crates/*/proofs/**/Answers.antt", recursive=True):
        n += len(re.findall(r"^pub \S+ : goal\.", open(path, encoding="utf-8").read(), re.M))
    return n


POINTS = {
    "1a own enums with a case for nothing or a refusal": enums,
    "1b a flag with a value beside it": lambda: grep(r"^    (pub )?(ok|few|dead|over|bad|unbuilt|unknown|too_large): bool,$"),
    "1c numbers for refusals": lambda: grep(r"\b(Refuse|Refused|Err)\((u8|\d+|n|number|refusal|BAD_RECORD)\)|number: u8|\breturn (1|5|6|7|8|9|10|11|12|17);|Result<[^<>]*, u8>|refuse\w*\(\w+, \d+"),
    "2 twins": twins,
    "3 loops that count an index by hand": index_loops,
    "4a equality, order, conversion by hand": lambda: [(p, n) for p, n, _, _ in functions() if re.fullmatch(r"same_\w+|is_same|is_before|wide\w*|number16|number32|number_from|larger|used_up|excess|in_range|is_digit|is_letter|byte_at|flag_word|joined|counted|is_none|is_any|digit_value|first_byte|put_mark|up_to|count_newline|value_of|is_given|number_of", n)],
    "4b casts by `as`": lambda: grep(r" as (u8|u16|u32|u64|usize)\b"),
    "5 facts and parameters": facts,
    "6 a length or a place beside what it measures": lambda: grep(r"NAME_BYTES|STARTS|while low < high|events: \[u8; 200\]|pub (first|second|third|fourth): u32|pub start: usize|^    start: usize|pub fn name_(bytes|starts)"),
    "7 a switch on which step": lambda: [(p, n) for p, n, s, _ in functions() if re.search(r"\b(keep|is|holds|second|mark): bool", s) or re.fullmatch(r"reach_\w+|has_code|has_either|tally_kept|copy_kept|tally_merged|copy_merged", n)],
}

if len(sys.argv) > 1:
    for title, find in POINTS.items():
        if title.split()[0] == sys.argv[1]:
            for place, what in find():
                print(place, what)
else:
    for title, find in POINTS.items():
        print(f"{title}: {len(find())}")
    print(f"8 answers in proofs/: {answers()}")
