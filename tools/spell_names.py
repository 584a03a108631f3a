#!/usr/bin/env python3
"""Spells the repository's own definitions, lemmas and rulesets as the library spells its own: words in snake case.

usage: python3 tools/spell_names.py          at the top of the repository, once, after the kit's port.py

A name is turned where a file of specs/ or proofs/ declares it and it has a dash or a capital inside: `bigAt` is `big_at`, `made-seen` is
`made_seen`. Types, facts, constructors and rulesets named after a fact keep their capitals. A lemma that would then have the name of a definition
gets `_lem` behind it. Names of src/, of C, texts and comments stay, but for what a comment or a page has in backticks.
It says which names fall together in a file, and changes nothing else.
"""
import os
import re
import subprocess
import sys

TOKEN = re.compile(r"[A-Za-z\u0370-\u03ff_\u25cc\u2080-\u2089][A-Za-z0-9\u0370-\u03ff_\u25cc'\u2080-\u2089-]*")
DECLARED = re.compile(r"^[ ]*(?:(?:abbrev|unfoldable|pub)[ ]+)*([^\s:(){}=,]+)[ ]*(?:(?:\([^)]*\)|\{[^}]*\})[ ]*)*:[ ]", re.M)
RULESET = re.compile(r"\bruleset[ ]+([^\s=]+)")
# commands and keys of the protocol: in backticks of a page these are the messages, and not the definitions of the same spelling
PROTOCOL = set("conRsp conCmp pingRsp pingCmp statusRsp statusCmp attPrp attPrpRsp attPrpCmp detRsp detCmp det ulData ulDataRsp ulDataCmp "
               "dlDataQue dlDataQueRsp dlDataQueCmp opId bsEui scEui snBsUuid snScUuid rxTime eqSnr packetCnt userData cntDepend "
               "responseExp responsePrio dlOpen dlWindReq expOnly dualChan repetition wideCarrOff longBlkDist epEui "
               "snBsOpId snScOpId snResume dutyCycle geoLocation memLoad cpuLoad cmdTime".split())
# names of the library, which files here bring in
LIBRARY = {"and-true", "and-false"}
# lemmas about a word of the library of that spelling
OWN = {"are-bytes": "are_bytes_lem", "is-nan": "is_nan_lem"}
# lemmas that port.py respelled, and that stand beside a definition which now gets that spelling
BESIDE = "entry_in field_fits is_digit is_free no_bits one_below same_bytes same_head same_kind same_row whole_in".split()


def snake(n):
    n = n.replace("-", "_")
    return re.sub(r"([a-z0-9])([A-Z])", lambda m: m.group(1) + "_" + m.group(2).lower(), n)


def files(root):
    for folder, dirs, names in os.walk(os.path.join(root, "crates")):
        dirs[:] = sorted(d for d in dirs if d != "out")
        for f in sorted(names):
            yield os.path.join(folder, f)


def is_walk(p):
    """A function's own proof: what it declares goes by the goals' names."""
    return p.endswith("/Proof.antt") or "/Proof/" in p


def bare(t):
    """A file's own words: no comments, no texts, no names behind a dot."""
    return set(re.findall(r"(?<![.\w'-])" + TOKEN.pattern, re.sub(r'"[^"]*"', "", re.sub(r"(--|//).*", "", t)))) | brought(t)


def brought(t):
    return {k for m in re.findall(r"^(?:pub )?use [^\n]*", t, re.M) for k in TOKEN.findall(m)}


def gather(root):
    named, words = set(), []
    for p in files(root):
        if p.endswith(".antt"):
            t = open(p, encoding="utf-8").read()
            words.append(bare(t))
            if not is_walk(p):
                t = re.sub(r"--.*", "", t)
                named |= set(DECLARED.findall(t)) | set(RULESET.findall(t))
    old = {n for n in named - LIBRARY if re.match(r"[a-z]", n) and ("-" in n or re.search("[A-Z]", n))}
    spelled = {}
    for n in sorted(named):
        spelled.setdefault(snake(n), []).append(n)
    turned = {}
    for n in sorted(old):
        m = OWN.get(n, snake(n))
        others = [o for o in spelled[snake(n)] if o != n and ("-" not in o or n in OWN)]
        if n not in OWN and "-" in n and any(n in w and o in w for w in words for o in others):
            m += "_lem"
        turned[n] = m
    return turned, named


def clauses(t, turn):
    """A source file: only what stands in code, and what a comment has in backticks."""
    out = []
    for line in t.split("\n"):
        code, mark, said = line.partition("//")
        out.append(TOKEN.sub(lambda m: turn.get(m.group(0), m.group(0)), code) + mark + ticked(said, turn))
    return "\n".join(out)


def ticked(said, turn):
    def one(m):
        return "`" + TOKEN.sub(lambda k: k.group(0) if k.group(0) in PROTOCOL else turn.get(k.group(0), k.group(0)), m.group(1)) + "`"

    return re.sub(r"`([^`\n]+)`", one, said)


def proofs(t, turn, walk=False):
    out = []
    word = re.compile((r"\b(?:c|tie|goal)\.[^\s(){},]*|" if walk else "") + TOKEN.pattern)
    for line in t.split("\n"):
        code, mark, said = line.partition("--")
        parts = re.split(r'("[^"]*")', code)
        parts = [s if s.startswith('"') else word.sub(lambda m: turn.get(m.group(0), m.group(0)), s) for s in parts]
        out.append("".join(parts) + mark + ticked(said, turn))
    return "\n".join(out)


def beside(t):
    """In lemma files alone: the lemma makes room for the definition."""
    return re.sub(r"(?<![\w.'-])((?:[A-Z]\w*\.)*)(" + "|".join(BESIDE) + r")(?![\w.'-])", r"\1\2_lem", t)


def modules(t):
    """The module `code` is spelled as a module."""
    t = re.sub(r"(\.specs\.(?:\{[^}]*)?)\bcode\b", r"\1Code", t)
    while re.search(r"\.specs\.\{[^}]*\bcode\.", t):
        t = re.sub(r"(\.specs\.\{[^}]*)\bcode\.", r"\1Code.", t)
    return re.sub(r"(?m)^(pub )?mod code$", r"\1mod Code", t)


def main():
    root = subprocess.run(["git", "rev-parse", "--show-toplevel"], capture_output=True, text=True, check=True).stdout.strip()
    turn, named = gather(root)
    met = {}
    for p in files(root):
        if not p.endswith((".antt", ".rt", ".edit")):
            continue
        t = open(p, encoding="utf-8").read()
        there = bare(beside(t) if "/proofs/" in p else t)
        used = {n for n in there if n in turn}
        for n in used:
            if turn[n] in there and p.endswith(".antt"):
                met.setdefault((n, turn[n]), []).append(os.path.relpath(p, root))
        if p.endswith(".antt"):
            new = proofs(beside(t) if "/proofs/" in p else t, turn, is_walk(p))
        elif p.endswith(".rt"):
            new = clauses(t, turn)
        else:
            new = "\n".join(l if l.startswith("#") else (proofs(l, turn) if ".antt" in t.split("old:")[0] else clauses(l, turn)) for l in t.split("\n"))
        new = modules(new)
        if new != t:
            open(p, "w", encoding="utf-8").write(new)
    for c in sorted(os.listdir(os.path.join(root, "crates"))):
        at = os.path.join(root, "crates", c, "specs")
        for a, b in (("code.antt", "Code.antt"), ("code", "Code")):
            if os.path.exists(os.path.join(at, a)):
                os.rename(os.path.join(at, a), os.path.join(at, b))
    for (n, m), where in sorted(met.items()):
        print(f"falls together: {n} and {m}: {', '.join(where[:3])}{' ..' if len(where) > 3 else ''}")
    print(f"{len(turn)} names turned")


if __name__ == "__main__":
    sys.exit(main())
