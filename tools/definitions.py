#!/usr/bin/env python3
"""The definitions of crates/*/specs, the types and contracts of crates/*/src, and what each of them cites, for tools/believed.py.
What a struct or an impl says by `ghost` counts as a contract.

A word that is spelled as a definition in scope counts as citing it, though it may be a variable there: nothing cited is missed.
Names of the kit are not followed. What cannot be found stands in `problems`."""
import functools
import itertools
import re
from pathlib import Path

ROOT = Path(__file__).resolve().parent.parent
CRATES = ROOT / "crates"

USE = re.compile(r"(?m)^ *((?:unfoldable |pub |ghost )*)use ([^\s{;]+?)(?:(?:\.|::)\{([^}]*)\}|(\.\*)| as ([^\s;]+))?;?$")
DECLARED = re.compile(r"(?m)^((?:(?:unfoldable|abbrev|axiom|pub) )*)(?:(record|data) (\S+)|(\S+)(?: \{[^}]*\})? :(?=\s|$))")
CONSTRUCTOR = re.compile(r"(?m)^  (\S[^:\n]*?) :(?=\s|$)")
TYPE = re.compile(r"(?m)^(pub )?(?:struct|enum) (\w+)(?:[^{;]*;|[^{;]*\{[^{}]*(?:\{[^{}]*\}[^{}]*)*\})")
CLAUSE = re.compile(r"\s*(?:requires|ensures|ghost)\*?(?:\s+\w+)?:?\s*\{")
FUNCTION = re.compile(rf'(?m)^ *((?:#\[[^\]]*\]\s*)*)(pub )?(?:extern "C" )?fn (\w+)([^{{]*?)(?={CLAUSE.pattern}|\s*\{{)')
GHOST = re.compile(r"(?m)^ *ghost (?!use )(\w+)(?: =|:) *(?=\{)")
WORD = re.compile(r'[^\s(){};,@"«»]+')

problems = []


def problem(words):
    if words not in problems:
        problems.append(words)


class Definition:
    """A declaration of specs/, a type of src/, or a function with its contract; what of its text is antt, and what Rattle."""

    def __init__(self, module, name, public, antt="", rattle="", exported=False):
        self.module, self.name, self.public, self.antt, self.rattle, self.exported = module, name, public, antt, rattle, exported
        self.is_type = not antt
        self.lines = sum(1 for line in (antt or rattle).splitlines() if line.strip())


class Module:
    """A file: what it declares, and what its `use` lines bring, each name with the path that it comes by."""

    def __init__(self, path, comment):
        place = path.relative_to(CRATES).with_suffix("")
        self.crate, self.layer, *way = place.parts
        self.way = [part for part in way if part not in ("Lib", "lib", "main", "mod")]
        self.label, self.text = str(place), path.read_text(encoding="utf-8")
        self.names, self.imports, self.modules, self.globs, self.passed_on, self.functions = {}, {}, {}, [], [], []
        bare = re.sub(comment, "", self.text)
        self.bare = USE.sub("", bare)
        for found in USE.finditer(bare):
            self.bring(*found.groups())

    def bring(self, marks, path, items, glob, alias):
        for item in filter(None, map(str.strip, (items or "").split(","))):
            name, _, local = item.partition(" as ")
            if self.layer == "src" and "ghost" not in marks:
                self.modules[local or name] = f"{path}::{name}"
                continue
            put(self.imports, local or name, f"{path}.{name}")
            self.passed_on += [local or name] if "pub" in marks else []
        if glob:
            self.globs.append(path)
        elif items is None:
            self.modules[alias or re.split(r"\.|::", path)[-1]] = path


def put(names, name, thing):
    """An operator goes by its name, and by what stands between its arguments."""
    names.update({word: thing for word in {name, *name.split("◌")} if word})


@functools.cache
def read_specs(path):
    module = Module(path, r"(?ms)\{-.*?-\}|(?<!\S)--(?!\S)[^\n]*$")
    starts = list(DECLARED.finditer(module.bare))
    known(module, module.bare[:starts[0].start()] if starts else module.bare, "mod")
    for found, after in itertools.zip_longest(starts, starts[1:]):
        marks, form, named, signed = found.groups()
        text = module.bare[found.start():found.end()] + known(module, module.bare[found.end():after and after.start()], signed)
        definition = Definition(module, named or signed, "pub" in marks, antt=text)
        constructors = [name for names in CONSTRUCTOR.findall(text) for name in names.split()] if form == "data" else []
        for name in [definition.name, *constructors]:
            put(module.names, name, definition)
    return module


def known(module, text, name):
    """What of a text belongs to the declaration of a name: indented lines, and clauses, which begin with the name."""
    clause = r"\S" if "◌" in (name or "") else rf"{re.escape(str(name))}(?!\S)|unfolding |infix|(?:pub )?mod |[)}}]"
    odd = re.search(rf"(?m)(?<=\n)(?!{clause})\S.*", "\n" + text)
    if odd and module.layer == "specs":
        problem(f"{module.label} has a line of a form that is not known here: {odd.group(0)}")
    return text[:odd.start() - 1] if odd else text


def read_source(path):
    module = Module(path, r"(?m)//.*$")
    for found in TYPE.finditer(module.bare):
        module.names[found.group(2)] = Definition(module, found.group(2), bool(found.group(1)), rattle=found.group(0))
    for found in FUNCTION.finditer(module.bare):
        attributes, public, name, signature = found.groups()
        if contract := "\n".join(clauses(module.bare, found.end())):
            module.functions.append(Definition(module, name, bool(public), contract, signature, "no_mangle" in attributes))
    for found in GHOST.finditer(module.bare):
        module.functions.append(Definition(module, found.group(1), False, braced(module.bare, found.end() + 1)))
    return module


def clauses(text, at):
    while found := CLAUSE.match(text, at):
        inside = braced(text, found.end())
        at = found.end() + len(inside) + 1
        yield inside


def braced(text, at):
    """What stands from there on, behind an opening brace, up to the brace that closes it."""
    end, depth = at, 1
    while depth:
        depth += {"{": 1, "}": -1}.get(text[end], 0)
        end += 1
    return text[at:end - 1]


specs = [read_specs(path) for path in sorted(CRATES.glob("*/specs/**/*.antt"))]
sources = [read_source(path) for path in sorted(CRATES.glob("*/src/**/*.rt"))]
contracts = [function for module in sources for function in module.functions]


def imported(module, path):
    """What the name at the end of a path means; None for a name of the kit."""
    found = re.match(r"Rattle\.(\w+)\.(specs|proofs)\.(?:(\S+)\.)?([^\s.]+)$", path)
    if not found or not (CRATES / found.group(1)).is_dir():
        return None
    crate, layer, below, name = found.groups()
    if below and below.startswith("declared."):
        meant = declared_type(crate, below.removesuffix(".TheVariants").split(".")[1:], name)
    else:
        file = CRATES / crate / layer / ((below or "Lib").replace(".", "/") + ".antt")
        meant = file.is_file() and meaning(read_specs(file), name)
    return meant or problem(f"{module.label} cites {path}, which cannot be found")


def declared_type(crate, way, name):
    """A type that the kit makes from one of src/, by the type's name or a variant's: where it is declared, or where `use` passes it on."""
    *above, last = way
    for module in (module for module in sources if module.crate == crate and module.way == above):
        if last in module.names:
            return module.names[last] if re.search(rf"\b{name}\b", module.names[last].rattle) else None
        if last in module.modules:
            return declared_type(crate, [part for part in module.modules[last].split("::") if part != "crate"], name)
    return None


def types_named(crate, name):
    return [module.names[name] for module in sources if module.crate == crate and name in module.names]


def meaning(module, name):
    """What a name means in a file; None for a variable and for a name of the kit."""
    if name in module.names:
        return module.names[name]
    if name in module.imports:
        return imported(module, module.imports[name])
    return next(filter(None, (meaning(child, name) for child in opened(module))), None)


def opened(module):
    """The modules below this one whose names it takes all."""
    for path in module.globs:
        file = CRATES.joinpath(module.crate, module.layer, *module.way, path.replace(".", "/") + ".antt")
        if file.is_file():
            yield read_specs(file)
        else:
            problem(f"{module.label} opens {path}, which cannot be found")


def in_antt(module, text):
    """What a text of antt cites. A word with a dot before it is a field; one behind a module's name is that module's."""
    for word in (found.rstrip(".") for found in WORD.findall(text)):
        head, _, rest = word.partition(".")
        path = f"{module.modules[head]}.{rest}" if head in module.modules else word
        yield meaning(module, head) or (imported(module, path) if rest else None)


def in_rattle(module, text):
    """The types that a text of Rattle cites; what is in capitals throughout is a constant."""
    for word in re.findall(r"\b[A-Z]\w*[a-z]\w*", text):
        crate = re.sub("^crate$", module.crate, module.modules.get(word, "").split("::")[0])
        found = [module.names[word]] if word in module.names else types_named(crate, word)
        if not found and crate and (CRATES / crate).is_dir():
            problem(f"{module.label} cites the type {word} of {crate}, which cannot be found")
        yield from found


@functools.cache
def cited(definition):
    return {*in_antt(definition.module, definition.antt), *in_rattle(definition.module, definition.rattle)} - {None}


def closure(roots):
    """What is cited, directly or through others, the roots among it."""
    reached, waiting = set(), list(roots)
    while waiting:
        definition = waiting.pop()
        if definition not in reached:
            reached.add(definition)
            waiting.extend(cited(definition))
    return reached


def offered(module):
    """What a file declares for others, or passes on."""
    passed_on = {meaning(module, name) for name in module.passed_on}
    return {d for d in module.names.values() if d.public}.union(passed_on - {None}, *map(offered, opened(module)))


def overlooked(definition, reached):
    """A check in another way: an imported name that is a word of a counted text means something that is counted."""
    for name, path in definition.module.imports.items():
        if re.search(rf"(?<![^\s(){{}};,]){re.escape(name)}(?![^\s(){{}};,.])", definition.antt):
            if imported(definition.module, path) not in {None, *reached}:
                problem(f"{definition.module.label}: {name}, which {definition.name} cites, was overlooked")


if __name__ == "__main__":
    print(__doc__)
