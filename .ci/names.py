#!/usr/bin/env python3
"""Lists what README.md and docs/ name and the repository hasn't: names in backticks, paths, pages, in docs/proved.md the functions
and clauses of each crate, in docs/architecture.md each crate, in docs/answers.md each folder of examples/refused. The status is then 1."""
import re
import subprocess
import sys
from pathlib import Path

ROOT = Path(__file__).resolve().parent.parent
FILES = subprocess.run(["git", "ls-files", "-co", "--exclude-standard"], cwd=ROOT, capture_output=True, text=True, check=True).stdout.split("\n")
FILES = [it for it in FILES if (ROOT / it).is_file()]
PAGES = [it for it in FILES if it == "README.md" or (it.startswith("docs/") and it.endswith(".md"))]
WORD = re.compile(r"[A-Za-z_][A-Za-z0-9_]*")


def words_of(files):
    """The words of these files, and of their paths."""
    found = set()
    for name in files:
        found.update(WORD.findall(name))
        found.update(WORD.findall((ROOT / name).read_text(errors="replace")))
    return found


def is_name(said):
    """Whether a word in backticks is meant as a name of something: it has an underscore or an inner capital."""
    return WORD.fullmatch(said) and ("_" in said or re.search("[a-z][A-Z]", said))


def missing_on(page, line, words):
    """What a line of a page names that isn't there."""
    for said in re.findall("`([^`]+)`", line):
        parts = said.split("::")
        if any(is_name(it) and it not in words for it in parts):
            yield f"nothing is named {said}"
        if re.fullmatch(r"(\.ci|bench|crates|docs|examples)/[\w./*-]*", said) and "/out" not in said and not list(ROOT.glob(said.rstrip("/"))):
            yield f"no path {said}"
    for link in re.findall(r"\]\(([^)#:]+)(?:#[^)]*)?\)", line):
        if not (ROOT / page).parent.joinpath(link).exists():
            yield f"no page {link}"


def missing_in_row(line, crate, words):
    """What a row of the table of proofs says of a crate that the crate hasn't."""
    for said in re.findall("`([^`]+)`", line.rstrip("| ").split("|")[-1]):
        for part in said.split("::"):
            if part not in words:
                yield f"{crate} has no {said}"


def unlike_examples():
    """What docs/answers.md and the folders of examples/refused don't have in common."""
    said = set(re.findall("`([^`]+)` ?[|,]", (ROOT / "docs/answers.md").read_text()))
    folders = {it.split("/")[2] for it in FILES if it.startswith("examples/refused/")}
    yield from (f"no row has examples/refused/{it}" for it in sorted(folders - said))
    yield from (f"there is no examples/refused/{it}" for it in sorted(said - folders) if re.fullmatch("[a-z]+-[A-Za-z0-9]+", it))


def main():
    sources = [it for it in FILES if it not in PAGES]
    words, found, crate = words_of(sources), 0, None
    for page in PAGES:
        for number, line in enumerate((ROOT / page).read_text().split("\n"), 1):
            missing = list(missing_on(page, line, words))
            row = re.match(r"\| (?:`(\w+)`)? ?\|", line)
            if page == "docs/proved.md" and row:
                if row[1] and row[1] != crate:
                    crate = row[1]
                    own = words_of(it for it in sources if it.startswith(f"crates/{crate}/"))
                missing += missing_in_row(line, crate, own) if own else [f"no crate {crate}"]
            elif page == "docs/architecture.md" and row and row[1] and not (ROOT / "crates" / row[1]).is_dir():
                missing.append(f"no crate {row[1]}")
            for it in missing:
                print(f"{page}:{number}: {it}")
            found += len(missing)
    for it in unlike_examples():
        print(f"docs/answers.md: {it}")
        found += 1
    sys.exit(1 if found else 0)


main()
