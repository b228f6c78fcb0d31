#!/usr/bin/env python3
"""What a machine can check of the documents. It prints what is wrong, a line each, and then ends with 1.

Each crate has a row in docs/ARCHITECTURE.md, and a README with the crates that crates.txt says it stands on. What a
crate's README cites by name is there, and so is each clause that docs/GUARANTEES.md or docs/CHECKER.md cites of a
judged law, and each law and lemma of which a page says where it is. Links lead somewhere. The code that
docs/READING.md shows stands in the sources, and the transcript that README.md shows is the example's. Stored scripts,
planted bugs, crates, laws and lines of the crates are as many as is said. Licence and kit are named. docs/DECISIONS.md
has each crate in its index. No page is longer than it may be; lines have at most 100 characters and cells at most 200
beside backquotes.
"""

import glob
import os
import re
import subprocess
import sys
from typing import Iterator

TOP = os.path.dirname(os.path.dirname(os.path.abspath(__file__)))
LINE, CELL = 100, 200
# What grows with what it says is read by nobody: a page that says more says something else shorter.
LENGTHS = {
    "README.md": 150,
    "CHANGELOG.md": 165,
    "docs/ARCHITECTURE.md": 358,
    "docs/GUARANTEES.md": 434,
    "docs/KV_ENGINE.md": 100,
    "docs/PROOFS.md": 520,
    "docs/TWINS.md": 325,
}
PAGES = ["README.md", "CONTRIBUTING.md", "CHANGELOG.md", "corpus/README.md", "docs/*.md", "crates/*/README.md"]


def text_of(path: str) -> str:
    with open(os.path.join(TOP, path), encoding="utf-8") as file:
        return file.read()


def found(*patterns: str) -> list[str]:
    """The files of these patterns, from the top of the repository."""
    return sorted(path for pattern in patterns for path in glob.glob(pattern, root_dir=TOP))


def fences(text: str) -> list[list[str]]:
    """The lines of each part that is fenced as code."""
    return [part.split("\n")[1:-1] for part in text.split("```")[1::2]]


def prose(text: str) -> Iterator[str]:
    """The lines outside fenced and indented code."""
    for part in text.split("```")[0::2]:
        yield from (line for line in part.split("\n") if not line.startswith("    "))


def cells(line: str) -> list[str]:
    return [cell.strip() for cell in line.strip().strip("|").split("|")]


def edges() -> dict[str, set[str]]:
    """Each crate, and those that it stands on."""
    lines = (line.split("#")[0].split(":") for line in text_of("crates.txt").split("\n"))
    return {line[0].split()[0]: set(line[1].split()) for line in lines if len(line) == 2}


def code_of(crate: str) -> str:
    """All that stands in a crate's src."""
    return "\n".join(map(text_of, found(f"crates/{crate}/src/*.rt", f"crates/{crate}/src/*/*.rt")))


def wrong_crates() -> Iterator[str]:
    table = text_of("docs/ARCHITECTURE.md").partition("\n## The crates\n")[2].partition("\n## ")[0]
    told = [row[0].strip("`") for row in map(cells, table.split("\n")) if len(row) == 3 and row[0].startswith("`")]
    for crate in sorted(set(told) ^ set(edges())):
        yield f"docs/ARCHITECTURE.md: {crate} stands in crates.txt or in the table, and not in both"
    for crate in edges():
        path = f"crates/{crate}/README.md"
        below = os.path.exists(os.path.join(TOP, path)) and re.search(r"^Stands on ([^.]*)\.", text_of(path), re.M)
        if not below or set(re.findall(r"`(\w+)`", below[1])) != edges()[crate]:
            yield f"{path}: it does not say what crates.txt says it stands on"


def wrong_names() -> Iterator[str]:
    for path in found("crates/*/README.md"):
        carried = text_of(path).partition("## Which clauses carry it")[2]
        code = code_of(path.split("/")[1])
        for name in re.findall(r"`(?:\w+::)?(\w+)`", carried):
            if not re.search(rf"\b{name}\b", code):
                yield f"{path}: {name} is not in the crate"


def clauses_of(code: str, function: str) -> set[str]:
    """The names of a function's clauses."""
    contract = re.search(rf"fn {function}\b.*?\n\{{", code, re.S)
    return set(re.findall(r"ensures (\w+) \{", contract[0])) if contract else set()


def wrong_clauses() -> Iterator[str]:
    code = code_of("transcript_law")
    for path in ["docs/GUARANTEES.md", "docs/CHECKER.md"]:
        rows = (cells(line) for line in text_of(path).split("\n") if line.startswith("|") and "`judged_" in line)
        for cited in (cited for row in rows for cited in row[-1].split(";")):
            function, *clauses = re.findall(r"`(\w+)`", cited)
            missing = set(clauses) - clauses_of(code, function)
            if missing or f"fn {function}" not in code:
                yield f"{path}: {function} has no clause {' '.join(sorted(missing))}"


def wrong_refusals() -> Iterator[str]:
    """Of the wrong definitions in docs/TWINS.md each law is in its crate, and each clause is one of its row's laws."""
    codes = {crate: code_of(crate) for crate in edges()}
    crate, named = "", []
    for line in text_of("docs/TWINS.md").partition("## What refuses")[2].split("\n"):
        row = cells(line)
        if len(row) != 2 or not (row[0] == "" or row[0].split(" ")[0] in codes):
            continue
        if row[0]:
            crate, named = row[0].split(" ")[0], re.findall(r"`(\w+)`", row[0])
        clauses = set().union(*(clauses_of(codes[crate], law) for law in named))
        missing = [law for law in named if f"fn {law}" not in codes[crate]]
        missing += set(re.findall(r"`\.(\w+)`", row[1])) - clauses
        if missing:
            yield f"docs/TWINS.md: {crate} {' '.join(named)}: there is no {' '.join(missing)}"


def wrong_laws() -> Iterator[str]:
    """Where a page says `law` of crate, there is one: a function, or a clause that is named behind its function."""
    codes = {crate: code_of(crate) for crate in edges()}
    for path in ["docs/CHECKER.md", "docs/GUARANTEES.md", "docs/DECISIONS.md"]:
        text = " ".join(text_of(path).split())
        for names, crate in re.findall(r"((?:`[\w:]+`(?:,| and)? )+)of (\w+)", text):
            for name in re.findall(r"`(?:\w+::)?(\w+)`", names) if crate in codes else []:
                if not re.search(rf"\b(?:fn|ensures) {name}\b", codes[crate]):
                    yield f"{path}: {name} is not in {crate}"


def wrong_lemmas() -> Iterator[str]:
    """Where docs/PROOFS.md has a file in brackets behind names, as `settles` (Settling), the last one stands there."""
    paths = found("crates/*/proofs/*.antt", "crates/*/proofs/*/*.antt", "crates/*/specs/*.antt")
    for names, file in re.findall(r"`([\w', `]+)` \(([A-Z]\w+)\)", " ".join(text_of("docs/PROOFS.md").split())):
        name = names.split("`")[-1]
        texts = [text_of(path) for path in paths if os.path.basename(path) == f"{file}.antt"]
        heads = rf"^ *(?:(?:pub|abbrev|unfoldable|data|record) )*{name}(?: .*)? : "
        if not any(re.search(heads, text, re.M) for text in texts):
            yield f"docs/PROOFS.md: there is no {name} in {file}"


def anchor(heading: str) -> str:
    """The name by which a link finds a heading."""
    return re.sub(r"[^\w -]", "", heading.lower()).replace(" ", "-")


def wrong_links() -> Iterator[str]:
    for path in found(*PAGES):
        text = text_of(path)
        headings = set(map(anchor, re.findall(r"^#+ (.*)", text, re.M)))
        for target in re.findall(r"\]\(([^)]+)\)", text):
            page, _, heading = target.partition("#")
            if page and not os.path.exists(os.path.join(TOP, os.path.dirname(path), page)):
                yield f"{path}: the link to {page} leads nowhere"
            if not page and heading not in headings:
                yield f"{path}: there is no heading {heading}"
        for page in re.findall(r"\b(?:docs|examples|corpus|tools|bench)/[\w-]+(?:\.\w+)?", text):
            if not os.path.exists(os.path.join(TOP, page)):
                yield f"{path}: there is no {page}"


def wrong_code() -> Iterator[str]:
    paths = found("crates/*/src/*.rt", "crates/*/src/*/*.rt", "crates/*/specs/*.antt", "crates/*/wrong/*.edit")
    lines = {line.strip() for path in paths for line in text_of(path).split("\n")}
    for line in (line for part in fences(text_of("docs/READING.md")) for line in part):
        if line.strip() not in lines:
            yield f"docs/READING.md: no source has the line {line.strip()}"


def wrong_sample() -> Iterator[str]:
    indented = re.findall(r"^    (\S.*)$", text_of("README.md"), re.M)
    shown = [re.split(r" {2,}", line)[0] for line in indented]
    sample = shown[shown.index("#26") : shown.index("#27") + 3]
    if "\n".join(sample) + "\n" not in text_of("examples/promoted.out"):
        yield "README.md: its transcript is not that of examples/promoted.dcp"


def laws() -> list[str]:
    """Public functions without parameters and with an empty body: their contracts are the laws."""
    return re.findall(r"^pub fn (\w+)\(\)\n(?: .*\n|\n)*\{\}$", code_of("*"), re.M)


def counts() -> dict[str, int]:
    """What documents count, by the words that stand behind the number."""
    sizes = subprocess.run([os.path.join(TOP, "tools/sizes")], stdout=subprocess.PIPE, text=True, check=True).stdout
    lines = list(map(int, cells(re.search(r"^\| all .*$", sizes, re.M)[0])[1:5]))
    named = zip(["code", "definitions", "proofs", "laws"], lines)
    return {
        r"stored\s+scripts": len(found("corpus/*/*.dcp")),
        r"planted\s+bugs": len(found("crates/*/must-fail/*.edit", "crates/*/wrong/*.edit")),
        "crates": len(edges()),
        "laws": len(laws()),
    } | {f"lines of {what}": count for what, count in named}


def wrong_counts() -> Iterator[str]:
    """A number with the word "some" may be wrong by a twentieth, or by ten. CHANGELOG.md has what was true once."""
    held = counts()
    for path in (path for path in found(*PAGES) if path != "CHANGELOG.md"):
        text = "\n".join(prose(text_of(path)))
        for what, count in held.items():
            for told, some, number in re.findall(rf"\b((some\s+)?(?<![\d,.])(\d[\d,]*)\s+{what})\b", text, re.I):
                if abs(int(number.replace(",", "")) - count) > (max(10, count // 20) if some else 0):
                    yield f"{path}: {' '.join(told.split())}: there are {count}"


def wrong_terms() -> Iterator[str]:
    """The licence is named where it is looked for, and each page that names the toolchain's kit names the same one."""
    for path in ["README.md", "crates.txt"]:
        if "SPDX-License-Identifier: Apache-2.0" not in text_of(path):
            yield f"{path}: it does not name the licence"
    kits = {kit: path for path in found(*PAGES) for kit in re.findall(r"rattle-kit-\w+ logic \w+", text_of(path))}
    if len(kits) != 1:
        yield f"the kits are several, or none: {', '.join(f'{path} {kit}' for kit, path in kits.items())}"


def wrong_index() -> Iterator[str]:
    rows = [cells(line)[0] for line in text_of("docs/DECISIONS.md").split("\n") if line.startswith("| `")]
    indexed = set(re.findall(r"`(\w+)`", " ".join(rows)))
    differing = indexed ^ {crate for crate in edges() if not crate.endswith("_tests")}
    if differing:
        yield f"docs/DECISIONS.md: the index is not of the crates: {' '.join(sorted(differing))}"


def wrong_lengths() -> Iterator[str]:
    for path, most in LENGTHS.items():
        length = text_of(path).count("\n")
        if length > most:
            yield f"{path}: {length} lines, and not {most} at most"


def wrong_widths() -> Iterator[str]:
    for path in found(*PAGES):
        for line in prose(text_of(path)):
            if line.startswith("|"):
                if max(len(cell.replace("`", "")) for cell in cells(line)) > CELL:
                    yield f"{path}: a cell of more than {CELL} characters: {line[:60]}"
            elif len(line) > LINE:
                yield f"{path}: a line of more than {LINE} characters: {line[:60]}"


def main() -> None:
    checks = [wrong_crates, wrong_names, wrong_clauses, wrong_links, wrong_code, wrong_sample, wrong_counts]
    checks += [wrong_refusals, wrong_laws, wrong_lemmas, wrong_terms, wrong_index, wrong_lengths, wrong_widths]
    wrong = [complaint for check in checks for complaint in check()]
    print("\n".join(wrong), end="\n" if wrong else "")
    sys.exit(1 if wrong else 0)


main()
