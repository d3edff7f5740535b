#!/usr/bin/env python3
"""Checks that crates.txt, crates/ and docs/ARCHITECTURE.md tell of one house, and counts what is in it.

    tools/check_house.py

It names each place that breaks a rule of ARCHITECTURE's chapter "The crates", or where that page says something else than
crates.txt, and ends with 1 where there is one. Imports of other crates' proofs are listed and not refused yet.
"""

import collections
import itertools
import pathlib
import re
import sys

TOP = pathlib.Path(__file__).resolve().parent.parent
PAGE = (TOP / "docs/ARCHITECTURE.md").read_text().split("\n")
wrong = []
groups, names = {}, {}  # of each crate its group, and the names of its line, in the order of crates.txt

group = None
for number, line in enumerate((TOP / "crates.txt").read_text().split("\n"), 1):
    words, _, comment = line.partition("#")
    if words.strip():
        crate = words.split(":")[0].split()[0]
        if group is None or crate in names:
            wrong.append(f"crates.txt:{number}: {crate} is in no group, or has a line already")
        groups[crate], names[crate] = group, words.partition(":")[2].split()
    elif ":" in comment:
        group = comment.partition(":")[0].strip().lower()
order = list(names)
ranks = {group: rank for rank, group in enumerate(dict.fromkeys(groups.values()))}
below = {crate: [it for it in names[crate] if it in names] for crate in order}
wrong += [f"crates/{it.name}: it has no line in crates.txt" for it in (TOP / "crates").iterdir() if it.name not in names]


def block(begin):
    """The indented lines that come next behind the line of the page that begins so."""
    rest = itertools.dropwhile(lambda line: not line.startswith(begin), PAGE)
    rest = itertools.dropwhile(lambda line: not line.startswith("    "), rest)
    return [line for line in itertools.takewhile(lambda line: line.startswith("    ") or not line, rest) if line]


def reach(crate):
    """All crates below one."""
    return {low for it in below[crate] for low in {it, *reach(it)}}


def longest(crate):
    """The longest chain of crates that begins with one."""
    return [crate] + max((longest(it) for it in below[crate]), key=len, default=[])


def compare(place, page, truth):
    """Notes where the page says something else than crates.txt."""
    if page != truth:
        wrong.append(f"docs/ARCHITECTURE.md, {place}: {page or 'nothing'}, but by crates.txt {truth}")


drawn, stands, label = collections.defaultdict(list), collections.defaultdict(list), None
for line in block("All crates, the highest layer first")[1:]:
    label = line[4:20].strip() or label
    for crate in re.findall(r"\besm\w*", line):
        drawn[crate].append(label)
for line in block("Who stands on whom"):
    crate, _, lower = line.partition(">")
    stands[crate.strip()] += lower.replace(",", " ").split()
rows = collections.Counter(re.findall(r"^\| `(esm\w*)` \|", "\n".join(PAGE), re.M))
for crate in sorted({*drawn, *stands, *rows} - {*order}):
    wrong.append(f"docs/ARCHITECTURE.md: {crate} is no crate")
for crate in order:
    direct = sorted({*below[crate]} - {"esm_model"}.union(*map(reach, below[crate])))
    compare(f"the drawing, layer of {crate}", drawn[crate], [groups[crate]])
    compare(f"what {crate} stands on", sorted(stands[crate]), direct)
    compare(f"what each crate does, lines of {crate}", rows[crate], 1)
    for low in below[crate]:
        if ranks[groups[low]] > ranks[groups[crate]] or order.index(low) > order.index(crate):
            wrong.append(f"crates.txt: {crate} stands on {low}, which comes behind it")
chain, most = " ".join(block("The longest chain")).replace(">", " ").split(), max(map(longest, order), key=len)
if len(chain) != len(most) or any(low not in below.get(high, []) for high, low in zip(chain, chain[1:])):
    compare("the longest chain", " > ".join(chain), " > ".join(most))

lemmas = re.findall(r"`(\w+)`", "".join(line for line in PAGE if line.startswith("Libraries of lemmas:")))
known = {*order, *(low for crate in order for low in names[crate])}
counts, foreign = collections.Counter(), collections.Counter()
for crate in order:
    home, cited = TOP / "crates" / crate, set()
    for path in [*home.glob("src/**/*.rt"), *home.glob("specs/**/*.antt"), *home.glob("proofs/**/*.antt")]:
        text = path.read_text()
        here = re.findall(r"\bRattle\.(\w+)\.", text)
        counts[path.relative_to(home).parts[0]] += text.count("\n")
        foreign.update((crate, it) for it in re.findall(r"\bRattle\.(\w+)\.proofs\.", text) if it in names and it != crate)
        if path.suffix == ".rt":
            here += re.findall(r"(?<![\w:])(\w+)::", re.sub(r"//.*", "", text))
            counts["wide"] += sum(len(line) > 160 for line in text.split("\n"))
            contracts = re.findall(r"^ +(?:requires|ensures)\b.*?(?:\};$|\n *\{$)", text, re.M | re.S)
            counts["tall"] += sum(it.rstrip("{ \n").count("\n") >= 15 for it in contracts)
        for it in sorted({*here} & known - {crate, *names[crate]}):
            wrong.append(f"{path.relative_to(TOP)}: cites {it}, which the line of {crate} in crates.txt does not name")
        cited.update(here)
    wrong += [f"crates.txt: {crate} names {it}, which no file of it cites" for it in names[crate] if it not in cited]

others = {pair: count for pair, count in foreign.items() if pair[1] not in lemmas}
for (crate, low), count in sorted(others.items()):
    print(f"{crate} imports {count} times from the proofs of {low}")
print(f"""{len(order)} crates, the longest chain {len(most)}
lines: src {counts["src"]}, specs {counts["specs"]}, proofs {counts["proofs"]}
contracts above 15 lines: {counts["tall"]}
lines of src above 160 characters: {counts["wide"]}
imports of foreign proofs: {sum(foreign.values())}; not of a library of lemmas {sum(others.values())}""")
for it in wrong:
    print(it, file=sys.stderr)
sys.exit(bool(wrong))
