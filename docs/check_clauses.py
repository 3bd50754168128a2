#!/usr/bin/env python3
"""Looks at the names of postconditions in the pages: whether each stands on the call beside which a page has it.

    python3 docs/check_clauses.py

A page has a name in one of these forms. Each holds of the sources, or is a fault:

    `crate::call: clause, other`          a call of that crate has these clauses; a method is `crate::Type::method`
    `crate::{one, other}: clause`         each of these calls has the clause
    `crate::call: clause; other: clause`  both calls are of that crate
    `crate::Type: member`                 the type, or a trait of it, has the ghost member
    `crate::name`                         the crate has a call, a type or a definition of that name
    `call`: `clause`, `other`             the same without the crate; in brackets after it stand definitions

A link around such a name leads to the file of the call. A table's last column may be headed "rests on", also with how its names begin:
"rests on: `crate::`". Then each row has a clause, a law or a lemma, ″ if these are those above it, or says "no clause"; names in
brackets are definitions, `Definition: field, other`. The status is 0 where all is so.
"""

import collections
import pathlib
import re
import sys

TOP = pathlib.Path(__file__).resolve().parent.parent
CRATES = {path.name for path in (TOP / "crates").iterdir() if (path / "src").is_dir()}
NAMED_PAGES = ("TRUST", "PROVED", "DECISIONS", "DISK", "TESTING", "MANUAL", "TOOLS")
PAGES = [path for path in ("README.md", "CONTRIBUTING.md", *(f"docs/{name}.md" for name in NAMED_PAGES)) if (TOP / path).exists()]
CLAUSE = re.compile(r"\s*(?:ensures|requires) (\w+) \{")
GHOST = re.compile(r"\s*(?:pub )?ghost (\w+)\b")
NAME = r"`[\w:]+`"
NAMES = rf"{NAME}(?:(?:, | and |, and ){NAME})*"
CALLED = re.compile(r"((?:\w+::)*)(\w+|\{[\w, ]+\})(?:: (\w+(?:, \w+)*))?")

clauses = collections.defaultdict(set)  # of a call or a type, by `name`, `Type::name`, and by both after `crate::`
traits = collections.defaultdict(set)   # those that a type implements
files = collections.defaultdict(set)    # those in which it stands, from crates/ on
definitions = set()                     # by `Name` and `crate::Name`
faults = []


def owners_of(line):
    """Returns the names of an `impl`'s trait and type, or of a trait, without parameters."""
    head = line
    while head != (shorter := re.sub(r"<[^<>]*>", "", head)):
        head = shorter
    found = re.match(r"(?:pub )?(?:unsafe )?(?:impl|trait)\s+(\w+(?:::\w+)*)(?: for (\w+(?:::\w+)*))?", head)
    return [name.split("::")[-1] for name in found.groups() if name] if found else []


def names_of(crate, owners, call):
    """Returns the names under which a call is known. A method of a trait for a type is the type's."""
    if owners:
        return [call, f"{owners[-1]}::{call}", f"{crate}::{owners[-1]}::{call}"]
    return [call, f"{crate}::{call}"]


def note(names, place, clause=None):
    """Notes these names, with the clause if there is one."""
    for name in names:
        files[name].add(place)
        clauses[name] |= {clause} if clause else set()


def read_source(path):
    """Notes the calls of a source with the names of their clauses."""
    place = str(path.relative_to(TOP))
    crate = path.relative_to(TOP / "crates").parts[0]
    owners, names, inside = [], [], False
    for line in path.read_text().splitlines():
        if re.match(r"(pub )?(unsafe )?(impl|trait)\b", line):
            owners = owners_of(line)
            if len(owners) == 2:
                traits[f"{crate}::{owners[1]}"].add(owners[0])
        elif line.startswith("}"):
            owners = []
        called = re.match(r"( *)(?:pub(?:\(\w+\))? )?(?:const )?(?:unsafe )?fn (\w+)", line)
        if called:
            names, inside = names_of(crate, owners if called[1] else [], called[2]), True
            note(names, place)
        elif inside and CLAUSE.match(line):
            note(names, place, CLAUSE.match(line)[1])
        elif inside and line.strip() == "{":
            inside = False
        ghost = GHOST.match(line)
        if ghost and ghost[1] != "use":
            owner = (owners or [path.stem])[-1]
            note([owner, f"{crate}::{owner}"], place, ghost[1])
        found = re.match(r"\s*(?:pub(?:\(\w+\))? )?(?:struct|enum|trait) (\w+)", line)
        if found:
            note([found[1], f"{crate}::{found[1]}"], place)
            owners = [found[1]] if line.endswith("{") else owners


def read_definitions(path):
    """Notes the definitions of a file of specs/, with the fields of their records."""
    crate = path.relative_to(TOP / "crates").parts[0]
    current, depth = None, 0
    for line in path.read_text().splitlines():
        found = re.match(r"( *)(?:\w+ )*?([\w-]+)(?: [({].*)? [:=](?: |$)", line)
        indent = len(line) - len(line.lstrip())
        if line.startswith("module "):
            current = None
        elif found and current and indent > depth:
            clauses[current].add(found[2])
        elif found and not line.lstrip().startswith(("use ", "--")):
            current, depth = found[2], indent
            definitions.update((current, f"{crate}::{current}"))
            clauses[current] |= set()


def take_over():
    """Gives each type, and each of its methods, the clauses of its traits."""
    for kind, own in traits.items():
        names = (kind, kind.split("::")[-1])
        for trait in own:
            for name in names:
                clauses[name] |= clauses[trait]
            for call in [call for call in clauses if call.startswith(f"{trait}::")]:
                for name in names:
                    method = f"{name}::{call.split('::')[1]}"
                    clauses[method] |= clauses[call]
                    files[method] |= files[kind]


def named(text):
    """Returns the names of a list."""
    return [name.strip("`") for name in re.findall(NAME, text)]


def check_call(page, crate, text, link):
    """Looks at the calls of a crate and their clauses. Returns whether there is a clause."""
    found = CALLED.fullmatch(text)
    if not found:
        faults.append(f"{page}: {crate}::{text}: neither a call nor its clauses")
        return False
    owner, last, own = found.groups()
    for name in last.strip("{}").split(", "):
        call = f"{crate}::{owner}{name}"
        if call not in clauses and (own or call not in definitions):
            faults.append(f"{page}: no call or definition {call}")
        for clause in (own.split(", ") if own else ()):
            if call in clauses and clause not in clauses[call]:
                faults.append(f"{page}: {call} has no clause {clause}")
        if link and link not in files[call]:
            faults.append(f"{page}: {link} has no {call}")
    return bool(own)


def check_full(page, span, link=None):
    """Looks at a span that begins with a crate. Returns whether it names a clause."""
    crate, _, calls = span.partition("::")
    return any([check_call(page, crate, text, link) for text in calls.split("; ")])


def check_definition(page, span):
    """Looks at a definition, and its fields if there are some."""
    name, _, fields = span.partition(": ")
    if name not in definitions:
        faults.append(f"{page}: no definition {name}")
    for field in fields.split(", ") if fields else ():
        if field not in clauses[name]:
            faults.append(f"{page}: no field {field} of {name}")


def check_spans(page, text):
    """Looks at each span of a text that begins with a crate. Returns whether one names a clause."""
    spans = re.findall(r"`([^`\n]+)`(?:\]\(\.\./([^)#]*)\))?", text)
    return any([check_full(page, span, link) for span, link in spans if re.match(r"\w+::.*[^:]$", span) and span.split("::")[0] in CRATES])


def check_cell(page, head, cell):
    """Looks at what a promise rests on, under this head. Returns whether there is something."""
    some = cell == "″" or cell.startswith("no clause")
    for inside in re.findall(r" \(([^()]*)\)", cell):
        for span in re.findall(r"`([^`]+)`", inside):
            check_definition(page, span)
    for span in re.findall(r"`([^`]+)`", re.sub(r" \([^()]*\)", "", cell)):
        some = True
        full = span if span.split("::")[0] in CRATES else head + span
        if full.split("::")[0] not in CRATES:
            faults.append(f"{page}: no crate of {span}")
        elif full != span:
            crate, _, within = full.partition("::")
            within = within.split("; ")[0] + "".join(f"; {head.partition('::')[2]}{text}" for text in within.split("; ")[1:])
            check_full(page, f"{crate}::{within}")
    return some


def check_rows(page, whole):
    """Looks at each row of a table of promises. Its head may begin the names of the last cells. Below a row that goes on with the one
    above, ″ would leave out the first of its cells."""
    head, above = None, ""
    for line in whole.splitlines():
        cells = [cell.strip() for cell in re.split(r"(?<!\\)\|", line)[1:-1]]
        if not cells:
            head = None
        elif found := re.fullmatch(r"rests on(?:: `([\w:]+)`)?", cells[-1]):
            head = found[1] or ""
        elif head is not None and set(cells[-1]) - set("-:") and not check_cell(page, head, cells[-1]):
            faults.append(f"{page}: nothing that this rests on: {cells[0][:80]}")
        elif head is not None and cells[-1] == "″" and not above:
            faults.append(f"{page}: ″ below a row that goes on: {cells[0][:80]}")
        above = cells[0] if cells else above


def check_pairs(page, calls, names):
    """Looks whether one of the calls, which no crate is said of, has each of these clauses."""
    known = [call for call in calls if call in clauses]
    if not known:
        if not any(call in CRATES for call in calls):
            faults.append(f"{page}: no call or definition {' or '.join(calls)}")
        return
    for name in names:
        if name[0].isupper():
            if name not in definitions and name not in clauses:
                faults.append(f"{page}: no definition {name}")
        elif not any(name in clauses[call] for call in known):
            faults.append(f"{page}: {' and '.join(known)} has no clause {name}")


def check_text(page, text):
    """Looks at the calls and clauses of a text, those in brackets first."""
    while found := re.search(r" ?\(([^()]*)\)", text):
        if re.search(rf"{NAME}: `", found[1]):
            check_flat(page, found[1])
        text = text[: found.start()] + text[found.end():]
    check_flat(page, text)


def check_flat(page, text):
    """Looks at the calls and clauses of a text without brackets."""
    for calls, names in re.findall(rf"({NAMES}): ({NAMES})", text):
        check_pairs(page, named(calls), named(names))
    for names, calls in re.findall(rf"({NAMES}) of ({NAMES})(?!:)", text):
        if all(name in clauses for name in named(calls)) and not any(name[0].isupper() or name in files for name in named(names)):
            check_pairs(page, named(calls), named(names))


def check_page(page):
    """Looks at all of a page."""
    whole = (TOP / page).read_text()
    check_spans(page, whole)
    check_rows(page, whole)
    whole = re.sub(r"\]\([^)]*\)", "]", whole)
    for part in re.split(r"\n\s*\n|\n(?=\s*(?:- |\|))", whole):
        check_text(page, " ".join(part.replace("[`", "`").replace("`]", "`").split()))


for source in TOP.glob("crates/*/src/**/*.rt"):
    read_source(source)
for source in TOP.glob("crates/*/specs/**/*.antt"):
    read_definitions(source)
take_over()
for each in PAGES:
    check_page(each)
for fault in dict.fromkeys(faults):
    print(f"docs/check: {fault}", file=sys.stderr)
sys.exit(1 if faults else 0)
