#!/usr/bin/env python3
"""Writes docs/HEADLINE.md: what the headline of the program rests on, file by file, in the order of reading.

    tools/headline.py            # writes the page
    tools/headline.py --check    # only says whether the page is current; status 1 where it is not

The headline is the clause `answers` of `run`, with its second half `answers_of_index`, and speaks of any world that meets the
trait `World`. The script begins with the words of these and of the other clauses of `run`. It follows each word to its definition in a specs file, by
the `use` lines, and the words of that definition on. Proofs are not followed. It goes by names: a word that a definition
uses as a name of its own can bring in a definition of that name, so the page may have too much, and not too little."""
import pathlib
import re
import sys

TOP = pathlib.Path(__file__).resolve().parent.parent
PAGE = TOP / "docs" / "HEADLINE.md"
HEADLINE = "answers"
SECOND_HALF = "answers_of_index"
LONG = 100
FRONT = f"""\
# What the headline rests on

Made by `tools/headline.py`; `tools/headline.py --check` says whether it is current.

The headline of this program is the clause `{HEADLINE}` of `run`, and its second half `{SECOND_HALF}`. They speak of any world that meets the trait `World`. Whoever
wants to know what they say has to read these and the definitions below, and no proof: the prover has read those. The
lowest crate comes first, and a file after those that it uses. *Lines* are those of the file, *cited* those of the
definitions that are reached, with their comments; the last column names these where they are not all. A table has only
what no earlier table has.""".splitlines()
SIGNATURE = re.compile(r"(?:(?:abbrev|unfoldable|pub)\s+)*(\S+)\s+:(?:\s|$)")
TYPE = re.compile(r"(?:pub\s+)?(record|data)\s+(?:pub\s+)?(\S+)")
USE = re.compile(r"^\s*(?:ghost )?use ((?:Rattle\.)\S+?)(?:\.\{([^}]*)\}|(?: as (\w+))?);?\s*$", re.M)


def crates_by_layer():
    """Gives the names of the crates, each after those that it stands on."""
    below = {}
    for line in (TOP / "crates.txt").read_text().splitlines():
        line = line.partition("#")[0].strip()
        if line:
            name, _, under = line.partition(":")
            below[name.split()[0]] = under.split()
    def height(name):
        return 1 + max((height(lower) for lower in below[name] if lower in below), default=0)
    return sorted(below, key=lambda name: (height(name), name))


def without_comments(text):
    return re.sub(r"(--|//).*", "", text)


def words_in(text):
    """The names in a text of antt, each with its path."""
    return set(re.split(r"[\s(){};,]+", re.sub(r'"[^"]*"', " ", without_comments(text))))


class Definition:
    def __init__(self, name):
        self.name, self.lines, self.names = name, [], [name]

    def text(self):
        return "\n".join(self.lines)


class File:
    """A specs file: its definitions by name, and what its `use` lines bring in."""

    def __init__(self, crate, module):
        self.crate, self.module = crate, module
        self.path = TOP / "crates" / crate / "specs" / (module.replace(".", "/") + ".antt")
        self.text = self.path.read_text()
        self.uses = imports_of(self.text)
        self.definitions, self.by_name = [], {}
        self.read()

    def read(self):
        """Finds the definitions: each begins with a signature, a record or a data type at the left, or in a module."""
        base, current, comments, data = 0, None, [], None
        for line in self.text.splitlines():
            bare = line.strip()
            depth = len(line) - len(line.lstrip())
            if bare.startswith("module ") and depth == 0:
                base, current, comments = 2, None, []
                continue
            if not bare or re.match(r"(use|infix[lr]?|pub mod|mod)\b", bare):
                comments = []
                continue
            if bare.startswith("--"):
                comments.append(line)
                continue
            base = min(base, depth)
            found = self.header(bare) if depth == base else None
            if found:
                kind, name = found
                current, data = Definition(name), kind == "data"
                current.lines += comments
                self.definitions.append(current)
            elif current is not None and data and depth > base and (constructor := SIGNATURE.match(bare)):
                current.names.append(constructor[1])
            comments = []
            if current is not None:
                current.lines.append(line)
        for definition in self.definitions:
            for name in definition.names:
                self.by_name[name] = definition
                for part in name.split("◌") if "◌" in name else []:
                    self.by_name.setdefault(part, definition)

    @staticmethod
    def header(bare):
        if (found := TYPE.match(bare)):
            return found[1], found[2]
        if (found := SIGNATURE.match(bare)) and found[1] not in ("pub", "abbrev", "unfoldable"):
            return "word", found[1]
        return None

    def first_comment(self):
        front = []
        for line in self.text.splitlines():
            if not line.startswith("--"):
                break
            front.append(line[2:].strip())
        sentence = re.split(r"(?<=[.]) ", " ".join(front))[0].rstrip(".")
        if len(sentence) > LONG and ": " in sentence:
            sentence = sentence[: sentence.index(": ")]
        return sentence.replace("|", r"\|")


def imports_of(text):
    """What the `use` lines bring in: from a word to its module and its name there, or to a module alone."""
    words = {}
    for path, group, alias in USE.findall(text):
        path = path.removeprefix("Rattle.")
        if not group:
            words[alias or path.rsplit(".", 1)[-1]] = (path, None)
            continue
        for item in filter(None, (item.strip() for item in group.split(","))):
            name, _, shown = item.partition(" as ")
            words[shown.strip() or name] = (path, name)
            for part in filter(None, name.split("◌")) if "◌" in name else []:
                words[part] = (path, name)
    return words


class Closure:
    """The definitions that are reached from some text, and the types and constants of the source that they name."""

    def __init__(self):
        self.files, self.reached, self.source, self.library = {}, set(), {}, set()

    def follow(self, text, uses, file=None):
        for word in sorted(words_in(text)):
            parts = word.split(".")
            if word in uses:
                self.name(*uses[word])
            elif parts[0] in uses:
                path, name = uses[parts[0]]
                self.name(path, name or (parts[1] if len(parts) > 1 else None))
            elif file and parts[0] in file.by_name:
                self.definition(file, parts[0])

    def name(self, path, name):
        crate, _, rest = path.partition(".")
        if not (TOP / "crates" / crate).is_dir():
            self.library.add((path, name))
            return
        rest = rest.removeprefix("specs.")
        if rest.startswith(("declared.", "contracts.")):
            self.declared(crate, rest.split(".")[1:], name)
            return
        if (crate, rest) not in self.files:
            self.files[crate, rest] = File(crate, rest)
        if name is not None and name in self.files[crate, rest].by_name:
            self.definition(self.files[crate, rest], name)

    def definition(self, file, name):
        definition = file.by_name[name]
        if definition not in self.reached:
            self.reached.add(definition)
            self.follow(definition.text(), file.uses, file)

    def declared(self, crate, parts, name):
        """A type or a constant of the source: its module is what comes before the name of the type."""
        modules = [part for part in parts if part[0].islower()]
        types = [part for part in parts if part[0].isupper() and not part.startswith("The")]
        found = (types or [name])[0]
        place = TOP / "crates" / crate / "src"
        path = place.joinpath(*modules).with_suffix(".rt") if modules else place / "lib.rt"
        self.source.setdefault((crate, path.relative_to(TOP)), set()).add(found)


def in_order(closure, files):
    """The files of a crate, each after those of the crate that its reached definitions use."""
    done = []
    def visit(file):
        if file in done or file not in files:
            return
        text = "\n".join(definition.text() for definition in file.definitions if definition in closure.reached)
        for word in sorted(words_in(text)):
            path, _ = file.uses.get(word, file.uses.get(word.split(".")[0], ("", None)))
            crate, _, module = path.partition(".specs.")
            if crate == file.crate and (crate, module) in closure.files:
                visit(closure.files[crate, module])
        done.append(file)
    for file in sorted(files, key=lambda file: file.module):
        visit(file)
    return done


def part_of(source, begin, end):
    """A part of a source file, and what its `use` lines bring in."""
    text = (TOP / source).read_text()
    start = text.index(begin)
    return text[start : text.index(end, start)], imports_of(text)


def roots():
    """What the page begins with: each with its title, its source and its text."""
    top, trait = "crates/bm_top/src/top.rt", "crates/bm_world/src/world.rt"
    contract, uses = part_of(top, "pub fn run", "\n{\n")
    clauses = [without_comments(clause) for clause in contract.split("\n    ensures ")[1:]]
    headline, second = (
        [clause for clause in clauses if clause.startswith(name + " ")] for name in (HEADLINE, SECOND_HALF)
    )
    others = [clause for clause in clauses if clause not in headline + second]
    if not headline or not second:
        sys.exit(f"`run` has no clause `{HEADLINE}`, or none `{SECOND_HALF}`")
    world, world_uses = part_of(trait, "pub trait World", "\n}\n")
    names = ", ".join(f"`{clause.split()[0]}`" for clause in others)
    return [
        (f"The headline, clause `{HEADLINE}` of `run`", top, "\n".join(headline), uses),
        ("The world, trait `World`", trait, world, world_uses),
        (f"Its second half, clause `{SECOND_HALF}` of `run`", top, "\n".join(second), uses),
        (f"The other clauses of `run`: {names}", top, "\n".join(others), uses),
    ]


def table(closure, crates, skipped):
    """The rows of the files that are reached, and the sums. Definitions of an earlier table are left out."""
    rows, sums = [], [0, 0, 0, 0]
    for crate in crates:
        files = [file for file in closure.files.values() if file.crate == crate]
        for file in in_order(closure, files):
            reached = [d for d in file.definitions if d in closure.reached and d not in skipped]
            if not reached:
                continue
            skipped.update(reached)
            lines, cited = len(file.text.splitlines()), sum(len(d.lines) for d in reached)
            which = "all" if len(reached) == len(file.definitions) else ", ".join(f"`{d.name}`" for d in reached)
            place = file.path.relative_to(TOP)
            name = f"{crate}/{file.module.replace('.', '/')}"
            rows.append(f"| [`{name}`](../{place}) | {lines} | {cited} | {file.first_comment()} | {which} |")
            sums = [a + b for a, b in zip(sums, (1, lines, cited, len(reached)))]
    return rows, sums


def source_rows(closure, crates):
    """A row for each source file whose types or constants the definitions name."""
    order = {crate: number for number, crate in enumerate(crates)}
    for (crate, path), names in sorted(closure.source.items(), key=lambda item: (order[item[0][0]], str(item[0][1]))):
        yield f"| [`{path}`](../{path}) | {', '.join(f'`{name}`' for name in sorted(names))} |"


def section(part, first):
    title, source, length, rows, files, lines, cited, count = part
    further = "" if first else " further"
    return [
        "",
        f"## {title}",
        "",
        f"[`{source}`](../{source}), {length} lines, from which {count}{further} definitions in {files} files are reached.",
        "",
        "| File | Lines | Cited | What it is | Definitions |",
        "|---|---:|---:|---|---|",
        *rows,
        f"| **{files} files** | **{lines}** | **{cited}** | | **{count}** |",
    ]


def page():
    crates, skipped, parts, whole = crates_by_layer(), set(), [], Closure()
    for title, source, text, uses in roots():
        whole.follow(text, uses)
        rows, sums = table(whole, crates, skipped)
        parts.append((title, source, len([line for line in text.splitlines() if line.strip()]), rows, *sums))
    out = list(FRONT)
    for part in parts:
        out += section(part, part is parts[0])
    out += ["", "## Types and constants of the source", ""]
    out += ["The definitions name these, which the prover takes from the source as they are.", ""]
    out += ["| File | Names |", "|---|---|", *source_rows(whole, crates)]
    out += ["", "## The sum", "", "| Part | Clauses, lines | Definitions | Their lines |", "|---|---:|---:|---:|"]
    out += [f"| {title} | {length} | {count} | {cited} |" for title, _, length, _, _, _, cited, count in parts]
    length, cited, count = (sum(part[at] for part in parts) for at in (2, 6, 7))
    out += [f"| **all** | **{length}** | **{count}** | **{cited}** |", ""]
    out += [f"Below them are {len(whole.library)} words of the kit's library."]
    return "\n".join(out) + "\n"


def main():
    if sys.argv[1:] not in ([], ["--check"]):
        sys.exit(__doc__)
    text = page()
    if not sys.argv[1:]:
        PAGE.write_text(text)
    elif not PAGE.is_file() or PAGE.read_text() != text:
        sys.exit(f"{PAGE.relative_to(TOP)} is not current: run tools/headline.py")


if __name__ == "__main__":
    main()
