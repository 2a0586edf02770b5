#!/usr/bin/env python3
"""Answers to a proof's needs without counting `.before`. Run it in the repository.

    tools/needs.py CRATE FUNCTION       what is known at each need of a function, nearest first, after `rt goals CRATE`
    tools/needs.py tidy                 drops from every Proof.antt the places, and the names that it does not use
    tools/needs.py shorten [FILE..]     in every Proof.antt, or these: an answer that is `search needs`, `omega arith` or `tt` and no
                                        more stands where the needs are handed over, instead of a declaration of its own; then tidy

From Python: `fill(crate, function, {need: answer}, uses, unfolding, inv, measure)` writes answers into the function's
Proof.antt, where `@thing` (@args, @pre, @if1, @loop, a callee's name ..) stands for the path into `c` to what bound it;
`uses` are lines to import. A function in a module is written module/function. The places of a call's `-requires` are not
always found: count those by hand. Needs that `shorten` has moved have no declaration for `fill` to write into.

Status: 0; 2 for bad usage, a crate, function or file that is not there, or an `rt goals` that fails, said on standard error."""
import glob
import re
import subprocess
import sys


def give_up(words):
    print(f"needs.py: {words}", file=sys.stderr)
    sys.exit(2)


def contents(file):
    try:
        return open(file).read()
    except (OSError, UnicodeDecodeError) as error:
        give_up(f"{file} cannot be read: {getattr(error, 'strerror', None) or 'it is no text'}")


def goals(crate):
    """Writes what is to be proved of a crate, anew."""
    try:
        done = subprocess.run(["rt", "goals", crate], capture_output=True, text=True)
    except OSError:
        give_up("rt, the command of the Rattle kit, cannot be run: is it on the PATH?")
    if done.returncode != 0:
        said = (done.stderr + done.stdout).strip().splitlines()
        give_up(f"rt goals {crate} fails with status {done.returncode}: {said[0] if said else 'it says nothing'}")


def places(crate, function):
    """The records of a function's places, and the record of each need."""
    files = glob.glob(f"target/goals/{glob.escape(crate)}/*proofs/proofs/{glob.escape(function)}/Lts.antt")
    if len(files) != 1:
        give_up(f"{crate} has no function {function} with anything to prove; one in a module is written module/function")
    records, needs, record, need = {}, {}, None, None
    for line in contents(files[0]).splitlines():
        if found := re.match(r" +pub record (\S+) : Type", line):
            record = found.group(1)
            records[record] = {"before": None, "binds": []}
        elif (found := re.match(r" +pub (\S+) : (\S+)", line)) and record:
            if found.group(1) == "before":
                records[record]["before"] = found.group(2)
            else:
                records[record]["binds"].append(found.group(1))
        elif found := re.match(r" +Need-(\S+) =", line):
            need = found.group(1)
            needs.setdefault(need, None)
        elif (found := re.match(r" +\(c : ([^\s)]+)", line)) and need and needs[need] is None:
            needs[need] = found.group(1)
    return records, needs


def way_back(records, record):
    while record in records:
        yield records[record]["binds"]
        record = records[record]["before"]


def path(crate, function, need, thing):
    records, needs = places(crate, function)
    for depth, binds in enumerate(way_back(records, needs[need])):
        if thing in binds:
            return "c" + " .before" * depth + " ." + thing
    raise KeyError(f"{function}: {need} knows of no {thing}")


def show(crate, function):
    goals(crate)
    records, needs = places(crate, function)
    for need, record in needs.items():
        print(need, *("/".join(binds) for binds in way_back(records, record)), sep="  ")


def fill(crate, function, answers, uses=(), unfolding=None, inv=None, measure=None):
    file = f"crates/{crate}/proofs/{function}/Proof.antt"
    text = contents(file)
    for name, body in (("Inv-loop", inv), ("μ-loop", measure)):
        if body:
            text = re.sub(rf"(\n{name} [^\n=]*)=[^\n]*(\n    [^\n]*)*", lambda m: f"{m.group(1)}= {body}", text)
    for need, answer in answers.items():
        opened, answer = answer if isinstance(answer, tuple) else (unfolding, answer)
        answer = re.sub(r"@([\w'-]+)", lambda m: path(crate, function, need, m.group(1)), answer)
        name = re.escape(need)
        text, done = re.subn(
            rf"({name} : tie\.Need-{name}[^\n]*\n)(?:unfolding [^\n]*\n)?{name} (c(?: κs)?) =[^\n]*(?:\n    [^\n]*)*",
            lambda m: m.group(1) + (f"unfolding {opened}\n" if opened else "") + f"{need} {m.group(2)} = {answer}", text, count=1)
        if not done:
            raise KeyError(f"{file}: no answer to {need}")
    for line in uses:
        if line not in text:
            text = line + "\n" + text
    open(file, "w").write(text)


def used(name, text):
    operator = name.strip("_")
    if name.startswith("_") and operator:
        return operator in text
    return re.search(rf"(?<![\w·-]){re.escape(name)}(?![\w·-])", text)


def tidied(text):
    text = re.sub(r"(?m)^-- src/\S+:\d+:\d+\n", "", text)
    for found in re.finditer(r"(?m)^use [^\s{]+ as (\S+)\n", text):
        rest = text.replace(found.group(0), "")
        if found.group(1) != "tie" and not re.search(rf"(?<![\w·.-]){re.escape(found.group(1))}\.", rest):
            text = rest
    for found in re.finditer(r"(?m)^use (\S+)\.\{([^}]*)\}\n", text):
        names = [name.strip() for name in found.group(2).split(",")]
        rest = text.replace(found.group(0), "", 1)
        kept = [name for name in names if used(name.split(" as ")[-1], rest)]
        if kept != names:
            text = text.replace(found.group(0), f"use {found.group(1)}.{{{', '.join(kept)}}}\n" if kept else "", 1)
    return re.sub(r"\n{3,}", "\n\n", text)


PLAIN = re.compile(r"\n\n(\S+) : tie\.Need-[^\n]*\n\1 (c(?: κs)?) = (search needs|omega arith|tt)(?=\n\n)")


def word(name):
    """A name where it stands by itself: no part of another name, and no field."""
    return re.compile(rf'(?<![^\s(){{}};,@"]){re.escape(name)}(?![^\s(){{}};,@"])')


def shortened(text):
    """Plain answers moved to where they are handed over; one whose name stands elsewhere too is left alone."""
    before, handing_over, arguments = text.rpartition("tie.spec")
    answers, spec, closing = before.rpartition("\n\npub ")
    if not re.match(r"\S+-spec :", closing):
        return text
    answers += "\n\n"
    for found in PLAIN.finditer(answers):
        name = found.group(1)
        rest = answers.replace(found.group(0), "", 1)
        if word(name).search(arguments) and not word(name).search(rest):
            answers, arguments = rest, word(name).sub("(λ {}. {})".format(*found.groups()[1:]), arguments)
    return tidied(answers.removesuffix("\n\n") + spec + closing + handing_over + arguments)


def rewrite(change, files=()):
    for file in files or glob.glob("crates/*/proofs/**/Proof.antt", recursive=True):
        text = contents(file)
        if change(text) != text:
            open(file, "w").write(change(text))
            print(file)


def main(words):
    if words in (["--help"], ["-h"]):
        print(__doc__)
    elif words == ["tidy"]:
        rewrite(tidied)
    elif words[:1] == ["shorten"]:
        rewrite(shortened, words[1:])
    elif len(words) == 2:
        show(*words)
    else:
        print(__doc__, file=sys.stderr)
        sys.exit(2)


if __name__ == "__main__":
    main(sys.argv[1:])
