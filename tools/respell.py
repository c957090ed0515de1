#!/usr/bin/env python3
"""Brings the repository's own names in specs/, proofs/ and contracts to today's spelling: words in snake case, facts, types and
theorems in camel case, a lemma's parts joined by _.  Run once at the top, directly after port.py.

    respell.py            rewrites crates/*/{src,specs,proofs} and crates/*/must-fail, and prints the names (old new, a line each)
    respell.py --dry      prints only
    respell.py --texts FILE..   rewrites those names in pages and scripts (reads the list that the first form wrote)

A name is the repository's own where a file of specs/ or proofs/ declares it; what proofs/F/Proof.antt answers (`: tie.`) is not.
Two names that would fall together, or fall on a name that a file has from a library, are left and told.
"""
import glob, json, os, re, sys

TOKEN = re.compile(r"[A-Za-z_⊎ℕ][\w'₀-₉-]*")
DECL = re.compile(r"^\s*(?:(?:abbrev|unfoldable|opaque|irreducible|instance|private)\s+)*(?:pub\s+)?((?:[A-Za-z_][\w'₀-₉-]*)(?:\s+[A-Za-z_][\w'₀-₉-]*)*)\s*(?:\{[^}]*\}\s*)*:(?!=)")
HEAD = re.compile(r"^\s*(?:pub\s+)?(?:record|data)\s+(?:pub\s+)?([A-Za-z_][\w'-]*)")
LIST = "tools/respelled.txt"

# Names that would fall together, and a name that was a number: chosen by hand.
CHOSEN = {
    "Demand-3": "ServiceBoundsHold", "Demand3": "ServiceBounds", "demand-3": "service_bounds",
    "Bytes-begin-demand-3": "BytesBeginServiceBounds", "bytes-begin-demand-3": "bytes_begin_service_bounds",
    "Numbers-begin-demand-3": "NumbersBeginServiceBounds", "numbers-begin-demand-3": "numbers_begin_service_bounds",
    "Replay-keeps-demand-3": "ReplayKeepsServiceBounds", "replay-keeps-demand-3": "replay_keeps_service_bounds",
    "In-a-row": "CallsInARow",
    "roomOf": "room_of_words",  # src/ has a function room_of
    # lemmas whose names port.py turned already, and whose definitions come to the same
    "no_room": "no_room_lem", "read_as": "read_as_lem", "stands_at": "stands_at_lem", "turned_down": "turned_down_lem",
}


def files():
    for pattern in ("specs", "proofs"):
        yield from sorted(f for f in glob.glob(f"crates/*/{pattern}/**/*.antt", recursive=True) if "/out/" not in f)


def snake(name):
    return re.sub(r"_?([A-Z])", lambda m: "_" + m.group(1).lower(), name.replace("-", "_"))


def respelled(name):
    if name[0].islower():
        return snake(name)
    if "-" in name or "_" in name.strip("_"):
        return "".join(p[:1].upper() + p[1:] for p in re.split(r"[-_]", name))
    return name


def collect():
    own, foreign = set(), set()
    crates = {os.path.basename(os.path.dirname(d)) for d in glob.glob("crates/*/")}
    for f in files():
        text = open(f).read()
        for m in re.finditer(r"^\s*(?:pub )?use\s+([\w.·]+)\.\{([^}]*)\}", text, re.M):
            path = m.group(1).split(".")
            if not (path[0] == "Rattle" and len(path) > 1 and path[1] in crates):
                foreign |= set(TOKEN.findall(m.group(2)))
        proof = f.endswith("/Proof.antt")
        for line in text.split("\n"):
            m = HEAD.match(line)
            if m:
                own.add(m.group(1))
                continue
            m = DECL.match(line)
            if not m or re.match(r"\s*(use|module|import|let|pub use|mod|pub mod)\b", line):
                continue
            if proof and ": tie." in line:
                continue
            if proof and "statement M" in line:
                continue
            for n in m.group(1).split():
                if n not in ("pub", "abbrev", "unfoldable"):
                    own.add(n)
    return own, foreign


def table():
    own, foreign = collect()
    want = {n: r for n, r in CHOSEN.items()}
    taken = {n for n in own if respelled(n) == n and n not in CHOSEN}
    defined = {respelled(n) for n in own if n not in CHOSEN and n[0].islower() and "-" not in n}
    for n in own - set(CHOSEN):
        r = respelled(n)
        if r != n and "-" in n and n[0].islower() and (r in defined or r in taken):
            r += "_lem"  # a lemma that would have its definition's name
        if r != n:
            want[n] = r
    by = {}
    for n, r in want.items():
        by.setdefault(r, []).append(n)
    left = {}
    for r, ns in by.items():
        if len(ns) > 1 or r in taken or r in foreign:
            for n in ns:
                left[n] = f"{r}: " + ("a library's" if r in foreign else "also of " + ", ".join(x for x in ns + ([r] if r in own else []) if x != n))
    for n in list(want):
        if n in foreign:
            left[n] = "a library has it"
    for n in left:
        want.pop(n, None)
    return want, left


def turn(text, want, walk=False):
    """In a walk by hand (Proof.antt) `c.f` and `before.f` are steps that were named after functions of src/: they stay."""
    def one(m):
        if walk and re.search(r"(?:\bc|\bbefore)\.$", text[max(0, m.start() - 8):m.start()]):
            return m.group(0)
        return want.get(m.group(0), m.group(0))

    return TOKEN.sub(one, text)


def turn_bound(text):
    """What a file of specs/ binds, and what it calls another module: in snake case as well, comments aside."""
    word = re.compile(r"(?<![\w'])[A-Za-z]\w*(?:-[A-Za-z]\w*)+")
    return "\n".join(l if l.lstrip().startswith("--") else word.sub(lambda m: snake(m.group(0)[0].lower() + m.group(0)[1:]), l) for l in text.split("\n"))


def main():
    if sys.argv[1:2] == ["--texts"]:
        want = dict(l.split()[:2] for l in open(LIST) if l.strip() and not l.startswith("#"))
        for f in sys.argv[2:]:
            t = open(f).read()
            open(f, "w").write(turn(t, want))
        return
    want, left = table()
    for n in sorted(left):
        print(f"left: {n} -> {left[n]}")
    if "--dry" in sys.argv:
        for n in sorted(want):
            print(n, want[n])
        return
    for f in list(files()) + sorted(glob.glob("crates/*/src/**/*.rt", recursive=True)) + sorted(glob.glob("crates/*/must-fail/*.edit")):
        t = open(f).read()
        n = turn(t, want, f.endswith("/Proof.antt"))
        n = turn_bound(n) if "/specs/" in f else n
        if n != t:
            open(f, "w").write(n)
    os.makedirs("tools", exist_ok=True)
    with open(LIST, "w") as out:
        out.write("".join(f"{n} {want[n]}\n" for n in sorted(want)))
    print(f"{len(want)} names, {len(left)} left")


main()
