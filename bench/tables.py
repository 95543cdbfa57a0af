#!/usr/bin/env python3
"""Prints the tables of docs/ that the repository itself decides, each between the markers under which it stands there.

    bench/tables.py            prints every table
    bench/tables.py --check    says which tables in docs/ are out of date, and ends with status 1 where one is
    bench/tables.py --write    writes those anew

A table stands between the lines `<!-- NAME: begin -->` and `<!-- NAME: end -->` of its page. It knows these:

    sizes         docs/GATE.md     lines of each crate, and how many edits its must-fail/ has
    lemma files   docs/REPAIR.md   the files of lemmas of each crate, each with its first comment
    edits         docs/PROOF.md    the edits of must-fail/. What refuses an edit can't be read off its file: those two
                                   cells are kept as they stand on the page, and are `?` of an edit that is new there
    no clause     docs/CLAIMS.md   how many public functions of each crate have no `ensures`, by their text
"""
import pathlib
import re
import sys

TOP = pathlib.Path(__file__).resolve().parent.parent
FUNCTION = re.compile(r"\s*pub (?:const )?fn (\w+)")
CLAUSE = re.compile(r"\s*(?:ensures|requires)\b|\s+[→×]")
TEST_MODULE = re.compile(r"#\[cfg\(test\)\]\n(?:#\[[^\n]*\n)*(?:pub )?mod (\w+);")


def crates():
    """The crates, in the order of crates.txt."""
    lines = (TOP / "crates.txt").read_text().splitlines()
    return [line.split(":")[0].split()[0] for line in lines if line.strip() and not line.startswith("#")]


def lines_in(paths):
    return sum(len(path.read_text().splitlines()) for path in paths)


def of_tests(crate):
    """The files of the crate's src/ that are compiled for tests alone."""
    source = TOP / "crates" / crate / "src"
    found = set()
    for root in ("lib.rt", "main.rt"):
        if (source / root).is_file():
            for name in TEST_MODULE.findall((source / root).read_text()):
                found.update(source.glob(f"{name}.rt"))
                found.update((source / name).rglob("*.rt"))
    return found


def code_of(crate):
    source = (TOP / "crates" / crate / "src").rglob("*.rt")
    return sorted(set(source) - of_tests(crate))


def edits_of(crate):
    return sorted((TOP / "crates" / crate / "must-fail").glob("*.edit"))


def sizes():
    rows, sums = [], [0] * 5
    for crate in crates():
        folder = TOP / "crates" / crate
        counts = [
            lines_in(code_of(crate)),
            lines_in(of_tests(crate)),
            lines_in((folder / "specs").rglob("*.antt")),
            lines_in((folder / "proofs").rglob("*.antt")),
            len(edits_of(crate)),
        ]
        sums = [one + other for one, other in zip(sums, counts)]
        rows.append([f"`{crate}`", *counts])
    rows.append([f"all {len(rows)}", *sums])
    return table(["Crate", "Code", "Tests", "Definitions", "Proofs", "Must-fail edits"], rows)


def about(path):
    """The first comment of a file of lemmas, without its last full stop."""
    said = []
    for line in path.read_text().splitlines():
        if not line.startswith("--"):
            break
        said.append(line[2:].strip())
    return " ".join(said).removesuffix(".").replace("|", "\\|") or "?"


def lemma_files():
    rows = []
    for crate in crates():
        files = sorted((TOP / "crates" / crate / "proofs").glob("*.antt"))
        shown = f"`{crate}`"
        for path in files:
            if path.stem != "Lib":
                rows.append([shown, f"`{path.stem}`", about(path)])
                shown = ""
    return table(["Crate", "File", "About"], rows)


def edits():
    kept, crate = {}, ""
    for line in standing("PROOF.md", "edits"):
        cells = [cell.strip() for cell in line.split("|")[1:-1]]
        if len(cells) == 4:
            crate = cells[0] or crate
            kept[(crate, cells[1])] = cells[2:]
    rows = []
    for crate in crates():
        shown = f"`{crate}`"
        for path in edits_of(crate):
            bug = path.stem.replace("_", " ")
            rows.append([shown, bug, *kept.get((f"`{crate}`", bug), ["?", "?"])])
            shown = ""
    return table(["Crate", "Bug", "Refused at", "By"], rows)


def without_clause(path):
    """The names of the file's public functions that have no `ensures`."""
    lines = path.read_text().splitlines()
    for start, line in enumerate(lines):
        head = FUNCTION.match(line)
        if not head:
            continue
        for later in lines[start:]:
            if re.match(r"\s+ensures\b", later):
                break
            if later.rstrip().endswith(("{", "{}", ";")) and not CLAUSE.match(later):
                yield head.group(1)
                break


def no_clause():
    rows, all_names = [], 0
    for crate in crates():
        if not crate.endswith("_tests"):
            names = [name for path in code_of(crate) for name in without_clause(path)]
            if names:
                rows.append([f"`{crate}`", len(names), ", ".join(f"`{name}`" for name in sorted(set(names)))])
                all_names += len(names)
    rows.append(["all", all_names, ""])
    return table(["Crate", "Functions", "Their names"], rows)


def table(head, rows):
    lines = ["| " + " | ".join(head) + " |", "|" + "---|" * len(head)]
    return lines + ["| " + " | ".join(str(cell) for cell in row) + " |" for row in rows]


def places(lines, name):
    """Where the table's markers stand."""
    return lines.index(f"<!-- {name}: begin -->"), lines.index(f"<!-- {name}: end -->")


def standing(page, name):
    lines = (TOP / "docs" / page).read_text().splitlines()
    begin, end = places(lines, name)
    return [line for line in lines[begin + 1 : end] if line]


TABLES = [
    ("sizes", "GATE.md", sizes),
    ("lemma files", "REPAIR.md", lemma_files),
    ("edits", "PROOF.md", edits),
    ("no clause", "CLAIMS.md", no_clause),
]


def write(page, name, made):
    path = TOP / "docs" / page
    lines = path.read_text().splitlines()
    begin, end = places(lines, name)
    path.write_text("\n".join(lines[: begin + 1] + [""] + made + [""] + lines[end:]) + "\n")


def main():
    words = sys.argv[1:]
    if words not in ([], ["--check"], ["--write"]):
        sys.exit(__doc__)
    late = 0
    for name, page, make in TABLES:
        made = make()
        if not words:
            print(f"docs/{page}, {name}:\n\n" + "\n".join(made) + "\n")
        elif standing(page, name) != made:
            late += 1
            print(f"docs/{page}: the table '{name}' {'is written anew' if words == ['--write'] else 'is out of date'}")
            if words == ["--write"]:
                write(page, name, made)
    sys.exit(1 if late and words == ["--check"] else 0)


main()
