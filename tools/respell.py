#!/usr/bin/env python3
"""Brings the repository's own antt names to snake case: `in-pool` becomes `in_pool`. Run once, at the top, after port.py.

Names of the kit, and names that the check makes (goals, steps, `tie.`), stay. A name whose new spelling stands already
for something else is listed, and gets the ending that RENAMED gives it.
"""
import collections
import glob
import os
import re
import subprocess

KIT = os.path.join(os.path.dirname(subprocess.run(["rt", "doc"], stdout=subprocess.PIPE, text=True, check=True).stdout.strip()), "rattle")
TOKEN = re.compile(r"(?<![\w'’-])([A-Za-z_][\w'₀-₉]*(?:-[\w'₀-₉]+)+)(?![\w'-])")
DECLARED = re.compile(r"^\s*(?:(?:abbrev|unfoldable|instance|pub|ruleset|record|data|syntax) )*([A-Za-z_][\w'₀-₉-]*)((?:\s+[\w'₀-₉-]+)*)\s*(?::|=|↦)(?!≡)", re.M)
USE = re.compile(r"(?:ghost )?use (Rattle\.[\w.+]+)\.\{([^}]*)\}", re.S)
# the check's own names, in files of proofs
MADE = re.compile(r"^(?:invariant|decreases)-|^returns(?:-|$)|^(?:Need|Lts|After|At|In|Then|Else|Start)-|-(?:init|preserved|smaller)(?:-\d+)?$")
# names whose plain spelling says another thing than their library word of today (`getD` is `get_or`), and a type
RENAMED = {
    "getD-all": "get_or_all", "getD-from": "get_or_from", "from-getD": "from_get_or", "getD-sets-behind": "get_or_sets_behind",
    "Ends-so": "EndsSo",
}
# names without a hyphen that are in no spelling of today's
WORDS = {"get_d_sets": "get_or_sets", "get_d_sets_before": "get_or_sets_before", "pick_l": "pick_list", "insertL": "insert_list"}
WORD = re.compile(r"(?<![\w'’-])(?:" + "|".join(WORDS) + r")(?![\w'-])")


def sources():
    for f in sorted(glob.glob("crates/**/*", recursive=True)):
        if f.endswith((".antt", ".rt")) and "/out/" not in f:
            yield f


def kit_words():
    found = set()
    for f in glob.glob(KIT + "/**/*.antt", recursive=True):
        found.update(TOKEN.findall(open(f, errors="replace").read()))
    return found


def code_of(line, antt):
    """Where the comment of a line begins."""
    at = line.find("--" if antt else "//")
    if antt:
        told = re.search(r"(?:^|\s)--(?:\s|$)", line)
        at = told.start() if told else -1
    return len(line) if at < 0 else at


def main():
    kit = kit_words()
    own = {os.path.basename(os.path.dirname(os.path.dirname(f))) for f in glob.glob("crates/*/src/*.rt")} | set(os.listdir("crates"))
    texts = {f: open(f).read() for f in sources()}
    declared = collections.defaultdict(set)
    for f, s in texts.items():
        if f.endswith(".antt"):
            for name, _ in DECLARED.findall(s):
                declared[name].add(f)
    plain = {n for n in declared if "-" not in n}
    clash = sorted(n for n in declared if "-" in n and n.replace("-", "_") in plain)
    if clash:
        print("spelling taken already:")
        for n in clash:
            print("  ", n, sorted(declared[n])[:2], sorted(declared[n.replace("-", "_")])[:2])
    count = collections.Counter()
    for f, s in texts.items():
        antt = f.endswith(".antt")
        proof = os.path.basename(f) in ("Proof.antt", "Answers.antt", "Invariants.antt")
        ours = {n for n in declared if f in declared[n]}
        for module, names in USE.findall(s):
            if module.split(".")[1] in own:
                ours.update(x.strip().split(" as ")[0].strip() for x in names.replace("\n", " ").split(","))
        def turn(m, line):
            w = m.group(1)
            before = line[:m.start()]
            if re.search(r"(?:tie|goal|goals|Goals|Tie)\.$", before):
                return w
            if w in kit and w not in ours and not (before.endswith(".") and w in declared):
                return w
            if w[0].isupper() and w not in declared:
                return w
            if proof and MADE.search(w):
                return w
            new = RENAMED.get(w, w.replace("-", "_"))
            count[w] += 1
            return new
        def word(m):
            count[m.group(0)] += 1
            return WORDS[m.group(0)]
        out = []
        for line in s.split("\n"):
            at = code_of(line, antt)
            code, rest = line[:at], line[at:]
            if not antt and '"' in code:
                parts = re.split(r'("(?:[^"\\]|\\.)*")', code)
                code = "".join(p if i % 2 else TOKEN.sub(lambda m, p=p: turn(m, p), p) for i, p in enumerate(parts))
            else:
                code = TOKEN.sub(lambda m: turn(m, code), code)
                code = WORD.sub(word, code)
            # names that a comment cites
            rest = re.sub(r"`([^`]+)`", lambda q: "`" + TOKEN.sub(lambda m: turn(m, q.group(1)) if m.group(1) in declared else m.group(1), q.group(1)) + "`", rest)
            out.append(code + rest)
        new = "\n".join(out)
        if new != s:
            open(f, "w").write(new)
    print("names respelled:", len(count), "places:", sum(count.values()))


main()
