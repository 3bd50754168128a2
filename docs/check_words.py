#!/usr/bin/env python3
"""Looks at the words of the pages: lengths of lines and sentences, links, and paths of files; and at the examples of calls,
whether a caller has their lines.

    python3 docs/check_words.py

A sentence of a page has 40 words at most; README has lines of 120 columns at most, the other pages of 200. A link to a file leads to
one that is there, and one to a heading to one that its page has. A path such as `byte_io/specs/Sink.antt` is that of a file of the crate,
and where a page has `is_byte` in `byte_io/specs/Sink.antt` the file has that name. The lines of an example stand in another source, in that
order. The size and the longest sentence of each page are printed. The status is 0 where all is so.
"""

import pathlib
import re
import sys

TOP = pathlib.Path(__file__).resolve().parent.parent
MOST_WORDS, README_COLUMNS, COLUMNS = 40, 120, 200
NAMES = r"`\w+`(?:(?:,|,? and) `\w+`)*"
SOURCES = sorted(TOP.glob("crates/*/src/**/*.rt"))
faults = []


def pages():
    """Returns the pages: those at the top, those in docs/, the demo's, and the man pages."""
    return sorted([*TOP.glob("*.md"), *TOP.glob("docs/*.md"), TOP / "demo" / "README.md", *TOP.glob("man/*.1")])


def without_code(text):
    """Returns a page without its blocks of code."""
    text = re.sub(r"^```.*?^```$", "", text, flags=re.S | re.M)
    lines, inside = [], False
    before = ""
    for line in text.splitlines():
        inside = line.startswith("    ") and (inside or not before.strip()) and not re.match(r" *([-*]|\d+\.) ", line)
        if not inside:
            lines.append(line)
        before = line
    return "\n".join(lines)


def texts_of(page):
    """Returns the paragraphs, the points of lists and the cells of tables of a page."""
    for block in re.split(r"\n\s*\n", without_code(page)):
        point = []
        for line in block.splitlines():
            if line.startswith("|"):
                yield from (cell.strip() for cell in re.split(r"(?<!\\)\|", line))
            elif re.match(r" *([-*]|\d+\.) |#|>", line):
                yield " ".join(point)
                point = [line.strip()]
            else:
                point.append(line.strip())
        yield " ".join(point)


def texts_of_manual(page):
    """Returns the paragraphs of a man page, without its synopsis and examples. What a macro sets in a font of its own is text."""
    page = re.sub(r"^\.SH SYNOPSIS$.*?^(?=\.SH )|^\.(nf|EX)$.*?^\.(fi|EE)$", "", page, flags=re.S | re.M)
    point, tag = [], False
    for line in page.splitlines():
        macro, _, words = line.partition(" ") if line.startswith(".") else ("", "", line)
        if macro and not re.fullmatch(r"\.[BIR]{1,2}", macro):
            yield " ".join(point)
            point, tag = [], macro == ".TP"
            continue
        point.append(re.sub(r"\\(f.|[&|^])", "", words).replace("\\-", "-").replace('"', ""))
        if tag:
            yield " ".join(point)
            point, tag = [], False
    yield " ".join(point)


def sentences_of(text):
    """Returns the sentences of a text. A span of code is one word."""
    text = re.sub(r"`[^`]*`", "code", text)
    text = re.sub(r"\]\([^)]*\)", "]", text)
    return re.split(r"(?<=[.?!])[*_)\]\"]*\s+", text)


def anchors_of(page):
    """Returns the names of a page's headings, as links have them."""
    heads = re.findall(r"^#+ (.*)$", without_code(page), flags=re.M)
    heads = [re.sub(r"\[([^\]]*)\]\([^)]*\)", r"\1", head) for head in heads]
    return {re.sub(r"[^\w\- ]", "", head.lower()).strip().replace(" ", "-") for head in heads}


def check_lines(path, page):
    """Looks at the lengths of a page's lines."""
    columns = README_COLUMNS if path == TOP / "README.md" else COLUMNS
    for number, line in enumerate(page.splitlines(), 1):
        if len(line) > columns:
            faults.append(f"{path.relative_to(TOP)}:{number}: {len(line)} columns, {columns} at most")


def check_sentences(path, page):
    """Looks at the lengths of a page's sentences, and returns that of the longest."""
    texts = texts_of_manual(page) if path.suffix == ".1" else texts_of(page)
    counts = [(len(sentence.split()), sentence) for text in texts for sentence in sentences_of(text)]
    for count, sentence in counts:
        if count > MOST_WORDS:
            faults.append(f"{path.relative_to(TOP)}: {count} words: {sentence[:100]} ..")
    return max(count for count, _ in counts)


def check_links(path, page):
    """Looks whether the links of a page lead somewhere."""
    name = path.relative_to(TOP)
    for link in re.findall(r"\]\(([^)\s]+)\)", without_code(page)):
        if re.match(r"[a-z]+:", link):
            continue
        file, _, anchor = link.partition("#")
        target = (path.parent / file).resolve() if file else path
        if not target.exists():
            faults.append(f"{name}: no file for the link {link}")
        elif anchor and target.suffix == ".md" and anchor not in anchors_of(target.read_text()):
            faults.append(f"{name}: no heading for the link {link}")


def check_sources(path, page):
    """Looks whether the crates have the files that a page names, and these the names that the page has in them."""
    page, name = " ".join(page.split()), path.relative_to(TOP)
    for names, crate, file in re.findall(rf"(?:({NAMES}) in )?`(?:crates/)?(\w+)/((?:specs|src|proofs|must-fail)/[\w./-]+)`", page):
        source = TOP / "crates" / crate / file
        if source.is_file():
            words = set(re.findall(r"\w+", source.read_text()))
            faults.extend(f"{name}: {crate}/{file} has no {it}" for it in re.findall(r"\w+(?=`)", names) if it not in words)
        elif (TOP / "crates" / crate).is_dir() and not source.exists():
            faults.append(f"{name}: {crate} has no {file}")


def check_page(path):
    """Looks at one page, and returns its size and the length of its longest sentence."""
    page = path.read_text()
    check_lines(path, page)
    check_links(path, page)
    check_sources(path, page)
    return path.stat().st_size, check_sentences(path, page)


def print_sizes(found):
    """Prints the size and the longest sentence of each page, and of all."""
    for name, (size, words) in found.items():
        print(f"{name}: {size:,} bytes, a sentence of {words} words")
    sizes, words = zip(*found.values())
    print(f"all pages: {sum(sizes):,} bytes, a sentence of {max(words)} words")


def has_lines(path, lines):
    """Looks whether a source has these lines, in this order."""
    own = (line.strip() for line in path.read_text().splitlines())
    return all(any(line == other for other in own) for line in lines)


def check_examples(path):
    """Looks at the examples in a source's documentation: another source has their lines."""
    text = re.sub(r"^ *///? ?", "", path.read_text(), flags=re.M)
    for example in re.findall(r"As a caller has it:\n\n```text\n(.*?)```", text, flags=re.S):
        lines = [line.strip() for line in example.splitlines()]
        if not any(other != path and has_lines(other, lines) for other in SOURCES):
            faults.append(f"{path.relative_to(TOP)}: no other source has the lines of the example {lines[0]}")


print_sizes({each.relative_to(TOP): check_page(each) for each in pages()})
for each in SOURCES:
    check_examples(each)
for fault in faults:
    print(f"docs/check: {fault}", file=sys.stderr)
sys.exit(1 if faults else 0)
