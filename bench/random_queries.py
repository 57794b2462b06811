#!/usr/bin/env python3
"""Asks the program random queries over random data, and compares what it prints with an evaluator of its own.

    bench/random_queries.py PROGRAM [COUNT [SEED]]

PROGRAM is the built `bitmat`. Each of COUNT rounds (1000 where none is said) makes some N-Triples and a query: groups,
nested and OPTIONAL ones, blocks with `;` and `,`, terms in several spellings, `*` or variables, DISTINCT or not. Some are
not well designed, or have variables at places that are not answered. The evaluator here goes by the query's tree, from
which its text was made, so it shares nothing with the program: neither a parser nor an algebra. It tells the line of a
refusal too. Each query is asked in both forms: JSON is read back by Python's own reader. The first difference is printed
whole and ends the run with status 1."""
import json
import os
import random
import subprocess
import sys
import tempfile

XSD = "http://www.w3.org/2001/XMLSchema#"
NODES = ["<urn:a>", "<urn:b>", "_:x"]
PREDICATES = ["<urn:p>", "<urn:q>"]
NUMBER, TRUE = f'"5"^^<{XSD}integer>', f'"true"^^<{XSD}boolean>'
LITERALS = ['"1"', '"a\\tb"', '"x"@en', NUMBER, TRUE]
NAMES = ["x", "y", "z", "w"]
PREDICATE_NAMES = ["p", "q"]

# other spellings in a query, where `xsd:` and `u:` are declared
SPELLINGS = {
    '"1"': ['"1"', "'1'", '"1"^^xsd:string', '"\\u0031"'],
    '"a\\tb"': ['"a\\tb"', '"a\tb"', "'a\\u0009b'"],
    '"x"@en': ['"x"@EN', "'x'@en"],
    NUMBER: ["5", "'5'^^xsd:integer", NUMBER],
    TRUE: ["true", "TRUE", '"true"^^xsd:boolean'],
}


def make_data(pick):
    """A set of triples, and lines that spell them, some twice."""
    triples = {
        (pick.choice(NODES), pick.choice(PREDICATES), pick.choice(NODES + LITERALS)) for _ in range(pick.randrange(2, 16))
    }
    lines = [" ".join(triple) + " .\n" for triple in sorted(triples) for _ in range(pick.choice([1, 1, 1, 2]))]
    pick.shuffle(lines)
    return triples, "".join(lines)


def make_node(pick, terms, names, variables):
    """A variable as its name, or a term as its text; a blank node stands in data alone."""
    if pick.random() < variables:
        return "?" + pick.choice(names)
    return pick.choice([term for term in terms if not term.startswith("_:")])


def make_triple(pick):
    """A triple pattern. Few have three variables, and few predicates a variable that nodes have too."""
    subject, obj = make_node(pick, NODES, NAMES, 0.85), make_node(pick, NODES + LITERALS, NAMES, 0.85)
    both = subject.startswith("?") and obj.startswith("?")
    names = NAMES if pick.random() < 0.05 else PREDICATE_NAMES
    return subject, make_node(pick, PREDICATES, names, 0.03 if both else 0.5), obj


def make_block(pick):
    return [make_triple(pick) for _ in range(pick.choice([1, 1, 2, 2, 3]))]


def make_group(pick, depth):
    """A list of parts, each with its kind: a block, an OPTIONAL group or a nested one. No two blocks stand in a row."""
    group = []
    for _ in range(pick.choice([0, 1, 1, 2, 2, 3])):
        kind = pick.choices(["block", "OPTIONAL", "nested"], [50, 35, 15])[0] if depth else "block"
        if kind != "block":
            group.append((kind, make_group(pick, depth - 1)))
        elif not group or group[-1][0] != "block":
            group.append((kind, make_block(pick)))
    return group


def node_text(pick, node):
    if node.startswith("?"):
        return pick.choice("?$") + node[1:]
    if node.startswith("<urn:"):
        return pick.choice([node, "u:" + node[5:-1]])
    return pick.choice(SPELLINGS[node])


def block_text(pick, block):
    text, before = "", None
    for triple in block:
        subject, predicate, obj = (node_text(pick, node) for node in triple)
        if before and before[:2] == triple[:2] and pick.random() < 0.8:
            text += f", {obj}"
        elif before and before[0] == triple[0] and pick.random() < 0.8:
            text += f"; {predicate} {obj}"
        else:
            text += f"{' . ' if before else ''}{subject} {predicate} {obj}"
        before = triple
    return text + pick.choice(["", " ."])


def group_text(pick, group):
    parts = []
    for kind, part in group:
        if kind == "block":
            parts.append(block_text(pick, part))
        else:
            word = pick.choice(["OPTIONAL ", "optional"]) if kind == "OPTIONAL" else ""
            parts.append(word + group_text(pick, part) + pick.choice(["", "", "", " ."]))
    return "{ " + " ".join(parts) + " }"


def names_in(group, names):
    """The names of the variables, in the order in which they first occur."""
    for kind, part in group:
        if kind != "block":
            names_in(part, names)
            continue
        for node in (node for triple in part for node in triple):
            if node.startswith("?") and node[1:] not in names:
                names.append(node[1:])
    return names


def lay_out(group, triples, optionals):
    """Puts the triple patterns of a group after those before, and its OPTIONALs, in the order of the text: where their
    left side begins, where it ends, and where the right side does."""
    first = len(triples)
    for kind, part in group:
        if kind == "block":
            triples.extend(part)
            continue
        middle, place = len(triples), len(optionals)
        if kind == "OPTIONAL":
            optionals.append(None)
        lay_out(part, triples, optionals)
        if kind == "OPTIONAL":
            optionals[place] = (first, middle, len(triples))


def variables_of(triples):
    return {node[1:] for triple in triples for node in triple if node.startswith("?")}


def refusal(group, numbers):
    """The line of a query that is refused, or None. Variables have their place in `numbers` as their number."""
    triples, optionals = [], []
    lay_out(group, triples, optionals)
    for number, (first, middle, last) in enumerate(optionals, 1):
        outside = variables_of(triples[:first] + triples[last:])
        offending = variables_of(triples[middle:last]) & outside - variables_of(triples[first:middle])
        if offending:
            name = min(offending, key=numbers.index)
            return f"query refused: not well designed: optional {number}, variable ?{name}\n"
    for number, triple in enumerate(triples, 1):
        if all(node.startswith("?") for node in triple):
            return f"query refused: three variables in pattern {number}\n"
    crossing = {p[1:] for _, p, _ in triples if p.startswith("?")} & variables_of([(s, o) for s, _, o in triples])
    if crossing:
        name = min(crossing, key=numbers.index)
        return f"query refused: variable ?{name} at predicate and node places\n"
    return None


def solutions(block, triples):
    """The mappings that make each pattern of the block a triple."""
    found = [{}]
    for pattern in block:
        tried = (matched(mapping, pattern, triple) for mapping in found for triple in triples)
        found = [mapping for mapping in tried if mapping is not None]
    return found


def matched(mapping, pattern, triple):
    more = dict(mapping)
    for node, term in zip(pattern, triple):
        if node.startswith("?"):
            if more.setdefault(node[1:], term) != term:
                return None
        elif node != term:
            return None
    return more


def partners(row, others):
    return [{**row, **other} for other in others if all(other[name] == row[name] for name in row if name in other)]


def evaluate(group, triples):
    rows = [{}]
    for kind, part in group:
        others = solutions(part, triples) if kind == "block" else evaluate(part, triples)
        if kind == "OPTIONAL":
            rows = [both for row in rows for both in partners(row, others) or [row]]
        else:
            rows = [both for row in rows for both in partners(row, others)]
    return rows


ESCAPES = str.maketrans({'"': '\\"', "\\": "\\\\", "\n": "\\n", "\r": "\\r", "\t": "\\t"})


def term_text(term):
    """The text of a term of a JSON result."""
    if term["type"] == "uri":
        return f"<{term['value']}>"
    if term["type"] == "bnode":
        return f"_:{term['value']}"
    text = '"' + term["value"].translate(ESCAPES) + '"'
    if "xml:lang" in term:
        return f"{text}@{term['xml:lang']}"
    return f"{text}^^<{term['datatype']}>" if "datatype" in term else text


def as_tsv(text):
    """A JSON result as the tab-separated values that say the same."""
    result = json.loads(text)
    names = result["head"]["vars"]
    lines = ["\t".join("?" + name for name in names)]
    for row in result["results"]["bindings"]:
        lines.append("\t".join(term_text(row[name]) if name in row else "" for name in names))
    return "".join(line + "\n" for line in lines)


def make_round(pick):
    """Data, a query, the line of its refusal, and what is to be printed."""
    triples, data = make_data(pick)
    group = make_group(pick, 3)
    star, distinct = pick.random() < 0.4, pick.random() < 0.4
    named = [pick.choice(NAMES + PREDICATE_NAMES) for _ in range(pick.choice([1, 1, 2, 3]))]
    columns = names_in(group, []) if star else list(dict.fromkeys(named))
    query = f"PREFIX u: <urn:other> prefix xsd: <{XSD}>\nPREFIX u: <urn:> # replaces the first\nSELECT "
    query += "DISTINCT " if distinct else ""
    query += "*" if star else " ".join(pick.choice("?$") + name for name in named)
    query += pick.choice([" ", " WHERE "]) + group_text(pick, group)
    refused = refusal(group, names_in(group, [] if star else list(dict.fromkeys(named))))
    if refused:
        return data, query, refused, "", 0
    rows = [tuple(row.get(name) for name in columns) for row in evaluate(group, triples)]
    rows = list(set(rows)) if distinct else rows
    rows.sort(key=lambda row: [(cell is not None, (cell or "").encode()) for cell in row])
    lines = ["\t".join("?" + name for name in columns)] + ["\t".join(cell or "" for cell in row) for row in rows]
    return data, query, "", "".join(line + "\n" for line in lines), len(rows)


def ask(program, folder, form):
    """The status, the line and the answers, as tab-separated values in either form."""
    run = subprocess.run([program, "ask", "d", "q", form], cwd=folder, capture_output=True)
    text = run.stdout.decode()
    return run.returncode, run.stderr.decode(), as_tsv(text) if form == "json" and text else text


def main():
    program = os.path.abspath(sys.argv[1])
    count = int(sys.argv[2]) if len(sys.argv) > 2 else 1000
    pick = random.Random(int(sys.argv[3]) if len(sys.argv) > 3 else 1)
    rows = refusals = 0
    with tempfile.TemporaryDirectory() as folder:
        for _ in range(count):
            data, query, refused, wanted, some = make_round(pick)
            rows += some
            refusals += bool(refused)
            for name, text in [("d", data), ("q", query)]:
                with open(os.path.join(folder, name), "w") as file:
                    file.write(text)
            got = [ask(program, folder, form) for form in ("tsv", "json")]
            if got != [(3 if refused else 0, refused, wanted)] * 2:
                print(f"data\n{data}query\n{query}\nwanted\n{refused}{wanted}got\n{got}")
                return 1
    print(f"{count} queries, {refusals} refused, {rows} rows, no difference")
    return 0


if __name__ == "__main__":
    sys.exit(main())
