#!/usr/bin/env python3
"""Counts what a reader must believe: the definitions that the demands and the contracts of the public calls cite, and those that
these cite in turn. Types of src/ are counted apart.

    tools/believed.py           lines by file, and the total; with --list the names too
    tools/believed.py --table   the same as docs/ARCHITECTURE.md has it
    tools/believed.py --check   whether docs/ARCHITECTURE.md has it so; --write puts it there
    tools/believed.py --unused  what no contract and no demand rests on, and what internal contracts alone rest on

Lines are those of definitions, without comments, imports and empty lines. A name that cannot be found is said, with status 1;
bad usage has status 2."""
import itertools
import re
import sys

sys.dont_write_bytecode = True
from definitions import CRATES, ROOT, cited, closure, contracts, offered, overlooked, problem, problems, read_specs, specs

# The public calls by crate: those that must have a contract; the crates whose calls bear the mark #[unsafe(no_mangle)]; and those that
# count once they have a contract, where None is every `pub` function of the crate.
CALLS = {
    "picture": ["read"],
    "patches": ["read"],
    "judge": ["claim", "convert", "walk", "check", "trial_check", "trial_walk", "trial_part"],
}
EXPORTING = ["fiswalend", "fiswalend_c"]
LATER = {"texts": ["report_text", "refused_text", "walk_text"], "reports": None}

# What is promised beside the judge's own answers, by the crates that say it; the rest is the judge.
BESIDE = {"the controller's bytes": ["answers", "fiswalend"], "the printed lines": ["texts", "reports"]}

DEMANDS = CRATES / "demands/specs/Demands.antt"
PAGE = ROOT / "docs/ARCHITECTURE.md"
BEGIN, END = "<!-- believed -->\n", "<!-- /believed -->\n"


def is_public_call(function):
    crate = function.module.crate
    names = {**CALLS, **LATER}.get(crate, [])
    return function.public and (names is None or function.name in names or crate in EXPORTING and function.exported)


def public_calls():
    calls = [function for function in contracts if is_public_call(function)]
    there = {(call.module.crate, call.name) for call in calls}
    for crate, name in ((crate, name) for crate in CALLS for name in CALLS[crate]):
        if (crate, name) not in there:
            problem(f"{crate}::{name} is to be a public call with a contract")
    return calls


def believed():
    reached = closure(offered(read_specs(DEMANDS)).union(*map(cited, public_calls())))
    for definition in reached:
        overlooked(definition, reached)
    return reached


def by_file(definitions):
    """The definitions of each file, from the end of crates.txt to its beginning, types last."""
    order = [line.split(":")[0].split(" ")[0] for line in (ROOT / "crates.txt").read_text().splitlines()]
    place = {crate: -number for number, crate in enumerate(order)}
    key = lambda d: (d.is_type, place.get(d.module.crate, 0), d.module.label)
    chosen = sorted(definitions, key=lambda d: (*key(d), d.module.bare.find(d.antt or d.rattle)))
    return [list(group) for _, group in itertools.groupby(chosen, key)]


def lines(definitions):
    return sum(definition.lines for definition in definitions)


def totals(reached):
    types = {definition for definition in reached if definition.is_type}
    return lines(reached - types), len(reached - types), lines(types)


def about(module):
    """The first sentence of what a file says of itself, without the place in the paper."""
    comment = itertools.takewhile(lambda line: line.startswith("--"), module.text.splitlines())
    words = re.sub(r'^01, "[^"]*"[^:"]*: ', "", " ".join(line[2:].strip() for line in comment))
    words = re.split(r'(?<=[^.])\.(?=[\s"]|$)', words)[0].replace("|", "\\|")
    words = words.strip('"') if words.startswith('"') else words
    return words if len(words) <= 100 else re.match(r".{,100}(?=[,;:] )|.{,97}(?= )", words).group(0) + " .."


def parts(reached):
    """The lines of the judge, of the controller's bytes and of the printed lines."""
    of = lambda crates: lines(d for d in reached if not d.is_type and d.module.crate in crates)
    beside = {title: of(crates) for title, crates in BESIDE.items()}
    return {"the judge": totals(reached)[0] - sum(beside.values()), **beside}


def table(reached):
    rows = ["| file | lines | about |", "|---|---|---|"]
    for group in by_file(definition for definition in reached if not definition.is_type):
        rows.append(f"| {group[0].module.label} | {lines(group)} | {about(group[0].module)} |")
    rows += [f"| {title} | {count} | |" for title, count in parts(reached).items()]
    rows.append("| all | {} | {} definitions; beside them {} lines of types in src/ |".format(*totals(reached)))
    return "".join(row + "\n" for row in rows)


def show(definitions, with_names=False):
    for group in by_file(definition for definition in definitions if with_names or not definition.is_type):
        print(f"{lines(group):5}  {group[0].module.label}", *(definition.name for definition in group if with_names))


def unused(reached):
    internal = closure(set().union(*map(cited, contracts))) - reached
    rest = set().union(*map(offered, specs)) - reached - internal
    for title, chosen in ("No contract and no demand rests on", rest), ("Internal contracts alone rest on", internal):
        print(f"{title}:")
        show((definition for definition in chosen if not definition.is_type), with_names=True)


def check(reached, write=False):
    before, begin, rest = PAGE.read_text(encoding="utf-8").partition(BEGIN)
    said, end, behind = rest.partition(END)
    has = table(reached)
    if not end:
        problem(f"docs/ARCHITECTURE.md has no lines {BEGIN.strip()} and {END.strip()} for the table to stand between")
    elif write and not problems:
        PAGE.write_text(before + begin + has + end + behind, encoding="utf-8")
    elif said != has:
        pairs = itertools.zip_longest(said.splitlines(), has.splitlines(), fillvalue="nothing")
        old, new = next(pair for pair in pairs if pair[0] != pair[1])
        problem(f"docs/ARCHITECTURE.md says {old}, the definitions have {new}: run tools/believed.py --write")


def main(command):
    commands = {
        "": show,
        "--list": lambda reached: show(reached, with_names=True),
        "--table": lambda reached: print(table(reached), end=""),
        "--check": check,
        "--write": lambda reached: check(reached, write=True),
        "--unused": unused,
    }
    if command in ("-h", "--help"):
        print(__doc__)
        sys.exit()
    if command not in commands:
        print(__doc__, file=sys.stderr)
        sys.exit(2)
    reached = believed()
    commands[command](reached)
    if command not in ("--table", "--unused"):
        print(*(f"{title}: {count}" for title, count in parts(reached).items()), sep=", ")
        print("believed: {} lines in {} definitions (and {} lines of types)".format(*totals(reached)))
    for words in sorted(problems):
        print(words, file=sys.stderr)
    sys.exit(1 if problems else 0)


if __name__ == "__main__":
    main(" ".join(sys.argv[1:]))
