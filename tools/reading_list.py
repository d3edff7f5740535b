#!/usr/bin/env python3
"""Lists what a reader of a contract has to read: each definition that it cites, and those that these cite in turn.

    tools/reading_list.py [FILE NAME]

It begins with the contract of `esm` in crates/esm_run/src/top.rt, or with the definition NAME of the FILE of specs/, follows
each name through the files of specs/, and prints a table for docs/DEFINITIONS.md: for each crate its files, each with the
lines of the definitions needed and of the whole file. Definitions of the toolkit and types of the code are not followed.
"""

import collections
import pathlib
import re
import sys

CRATES = pathlib.Path(__file__).resolve().parent.parent / "crates"
HEAD = re.compile(r"^(?:(?:abbrev|unfoldable) pub|pub (?:record|data))\s+(\S+)")
IMPORT = re.compile(r"^\s*(?:ghost )?use Rattle\.([\w.]+?)(?:\.\{([^}]*)\}|(?: as (\w+)))?;?\s*$", re.M)
NAME = re.compile(r"[\w◌↔⊎≡+\-*/^'&|<>≤≢∷\[\]]+")


def definitions(lines):
    """The lines of each definition of a file, its comment among them, by its name."""
    heads = [(n, found.group(1)) for n, line in enumerate(lines) if (found := HEAD.match(line))]
    spans = {}
    for k, (begin, name) in enumerate(heads):
        end = heads[k + 1][0] if k + 1 < len(heads) else len(lines)
        while begin > 0 and lines[begin - 1].startswith("--"):
            begin -= 1
        while lines[end - 1].startswith("--") or not lines[end - 1].strip():
            end -= 1
        spans[name] = range(begin, end)
    return spans


def imports(text):
    """For each name in scope its module, and its name there; none for the name of a module."""
    scope = {}
    for module, names, alias in IMPORT.findall(text):
        if alias:
            scope[alias] = (module, None)
        for name in filter(None, map(str.strip, names.split(","))):
            there, _, here = name.partition(" as ")
            scope[here or there] = (module, there)
    return scope


def spec_file(module):
    """The file of specs/ of a module of ours."""
    crate, *rest = module.split(".")
    if rest[:1] != ["specs"] or rest[1:2] == ["declared"]:
        return None
    path = CRATES.joinpath(crate, "specs", *rest[1:]).with_suffix(".antt")
    return path if path.exists() else None


class Spec:
    """A file of specs/."""

    def __init__(self, path):
        text = path.read_text()
        self.lines = text.split("\n")
        self.spans = definitions(self.lines)
        self.scope = imports(text)

    def text(self, name):
        return "\n".join(line for n in self.spans[name] if not (line := self.lines[n]).startswith("--"))


def cited(text, scope, own, spans):
    """The definitions that a text cites: each a file and a name."""
    for name in set(NAME.findall(text)):
        if name in spans:
            yield own, name
        elif name in scope and scope[name][1]:
            yield spec_file(scope[name][0]), scope[name][1]
    for module, name in set(re.findall(r"(\w+)\.(\w+)", text)):
        if module in scope and not scope[module][1]:
            yield spec_file(scope[module][0]), name


def cited_by_esm():
    """The definitions that the contract of `esm` cites."""
    top = (CRATES / "esm_run/src/top.rt").read_text()
    contract = re.search(r"^pub fn esm\b.*?^\{$", top, re.M | re.S).group(0)
    return list(cited(contract, imports(top), None, {}))


def needed(todo):
    """Each file of specs/ that is needed for these definitions, and for each the names of those that are."""
    files, found = {}, collections.defaultdict(set)
    while todo:
        path, name = todo.pop()
        if path is None or name in found[path]:
            continue
        if path not in files:
            files[path] = Spec(path)
        spec = files[path]
        if name in spec.spans:
            found[path].add(name)
            todo += cited(spec.text(name), spec.scope, path, spec.spans)
    return files, found


def main():
    begin = [(pathlib.Path(sys.argv[1]).resolve(), sys.argv[2])] if len(sys.argv) == 3 else cited_by_esm()
    files, found = needed(begin)
    rows = collections.defaultdict(list)
    for path, names in found.items():
        lines = {n for name in names for n in files[path].spans[name]}
        if lines:
            rows[path.relative_to(CRATES).parts[0]].append((path.stem, len(lines), len(files[path].lines) - 1))
    print("| crate | files: lines needed of all | lines needed |\n|---|---|---|")
    for crate in sorted(rows):
        parts = ", ".join(f"`{stem}` {some} of {all_}" for stem, some, all_ in sorted(rows[crate]))
        print(f"| `{crate}` | {parts} | {sum(some for _, some, _ in rows[crate])} |")
    every = [row for crate in rows.values() for row in crate]
    print(f"\n{len(every)} files; {sum(some for _, some, _ in every)} lines of {sum(all_ for _, _, all_ in every)}.")


main()
