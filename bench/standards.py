#!/usr/bin/env -S python3 -B
"""Runs the W3C's tests that you have with the program, as far as its part of the language goes.

    bench/standards.py PROGRAM FOLDER

PROGRAM is the built `bitmat`. Suites of RDF 1.1 N-Triples, SPARQL 1.0 or SPARQL 1.1 lie anywhere in FOLDER: each file
`manifest*.ttl` or `manifest*.n3` is read. Of syntax it is asked whether a file is accepted, of answers whether the rows are
the same: each as often, in any order, blank nodes renamed, literals as terms and not by value. Data in Turtle are written
as N-Triples for the program, and relative IRIs in them stay as they are, as they do in a query.

For each kind of test is printed how many agree, are refused by name (even where a query is to be refused), differ by a
decision of docs/DECISIONS.md, or are not run. What differs without a reason is printed whole. Then, or where nothing
agrees, the status is 1."""
import collections
import itertools
import json
import pathlib
import re
import sys
import tempfile
import urllib.parse
import xml.etree.ElementTree

from random_queries import ESCAPES, XSD, ask, term_text

RDF = "http://www.w3.org/1999/02/22-rdf-syntax-ns#"
TESTS = "http://www.w3.org/2001/sw/DataAccess/tests/"
MF, QT, RS = TESTS + "test-manifest#", TESTS + "test-query#", TESTS + "result-set#"
DAWGT, RDFT = TESTS + "test-dawg#", "http://www.w3.org/ns/rdftest#"
REGIME = "http://www.w3.org/ns/sparql-service-description#entailmentRegime"
GOOD_DATA, BAD_DATA = "N-Triples to be accepted", "N-Triples to be refused"
GOOD_QUERY, BAD_QUERY, ANSWERS = "queries to be accepted", "queries to be refused", "queries to be answered"
STATUS = {GOOD_DATA: 0, BAD_DATA: 2, GOOD_QUERY: 0, BAD_QUERY: 3}
KINDS = {
    "TestNTriplesPositiveSyntax": GOOD_DATA,
    "TestNTriplesNegativeSyntax": BAD_DATA,
    "PositiveSyntaxTest(11)?|TestSyntax": GOOD_QUERY,
    "NegativeSyntaxTest(11)?|TestBadSyntax": BAD_QUERY,
    "QueryEvaluationTest": ANSWERS,
}
Test = collections.namedtuple("Test", "kind name file data result")

# what became of a test; three of them go on with more words
AGREES, DIFFERS = "agree", "differ without a reason"
REFUSED, DECIDED, NOT_RUN = "refused by name: ", "differ by decision: ", "not run: "
CAUSE = re.compile(
    r"3 query refused: (?:unsupported (\S+) at byte (?P<place>\d+)|(too many \w+|too deep) at byte \d+"
    r"|(not well designed): .*|(three variables) in pattern \d+|variable \S+ (at predicate and node places))\n"
)
RELATIVE, BY_NUMBER = rb"<(?![A-Za-z][A-Za-z0-9+.-]*:)[^\x00-\x20<>\"{}|^`]*>", rb"\\[uU][0-9A-Fa-f]{4}"
ASKED = {(GOOD_QUERY, 3), (BAD_QUERY, 0), (ANSWERS, 0), (ANSWERS, 3)}
# kinds with the status at which they differ, a sign in what was asked, and the decision
DECISIONS = [
    ({(BAD_DATA, 0), (ANSWERS, 0)}, RELATIVE, "relative IRIs are taken as they are"),
    ({(BAD_DATA, 0)}, rb"_:[^\s<\"]*:", "a label of N-Triples may have a colon"),
    (ASKED, BY_NUMBER, "escapes by number are read in IRIs and strings alone"),
]

LETTER = r"\w\-\u0080-\U0010ffff"
TOKEN = re.compile(
    rf"""(?P<space>(?:\s|\#[^\n\r]*)+)
    | (?P<iri><(?:[^\x00-\x20<>"{{}}|^`\\]|\\u[0-9A-Fa-f]{{4}}|\\U[0-9A-Fa-f]{{8}})*>)
    | (?P<long>\"\"\"(?:"?"?(?:[^"\\]|\\.))*\"\"\"|'''(?:'?'?(?:[^'\\]|\\.))*''')
    | (?P<short>"(?:[^"\\\n\r]|\\.)*"|'(?:[^'\\\n\r]|\\.)*')
    | (?P<tag>@[A-Za-z]+(?:-[A-Za-z0-9]+)*)
    | (?P<blank>_:[{LETTER}](?:[{LETTER}.]*[{LETTER}])?)
    | (?P<name>(?:(?![\d-])[{LETTER}](?:[{LETTER}.]*[{LETTER}])?)?:(?:\.*(?:[{LETTER}:]|%[0-9A-Fa-f]{{2}}|\\[!-/;=?@_~]))*)
    | (?P<number>[+-]?(?:(?:\d+\.?\d*|\.\d+)[eE][+-]?\d+|\d*\.\d+|\d+))
    | (?P<sign>[A-Za-z]+|\^\^|.)""",
    re.X | re.S,
)
FRESH = itertools.count()
CONTROLS = {"t": "\t", "b": "\b", "n": "\n", "r": "\r", "f": "\f"}


def unescaped(text):
    escape = r"(?s)\\(?:u([0-9A-Fa-f]{4})|U([0-9A-Fa-f]{8})|(.))"
    return re.sub(escape, lambda one: CONTROLS.get(one[3], one[3]) or chr(int(one[1] or one[2], 16)), text)


def resolved(base, iri):
    """An IRI that is taken from `base`; where that is empty, a relative one stays as it is."""
    if not base or re.match(r"[A-Za-z][A-Za-z0-9+.-]*:", iri):
        return iri
    stem, mark, fragment = iri.partition("#")
    return (urllib.parse.urljoin(base, stem) if stem else base.partition("#")[0]) + mark + fragment


class Turtle:
    """Reads a file in Turtle. Its triples have terms as N-Triples writes them, and blank nodes with names of their own."""

    def __init__(self, path, base=""):
        tokens = [(one.lastgroup, one[0]) for one in TOKEN.finditer(path.read_bytes().decode("utf-8-sig"))]
        self.tokens, self.base = [("end", "")] + [token for token in reversed(tokens) if token[0] != "space"], base
        self.prefixes, self.labels, self.triples = {}, {}, []
        while not self.begins(""):
            self.statement()

    def begins(self, *tokens):
        return self.tokens[-1][1] in tokens

    def takes(self, token):
        return self.begins(token) and bool(self.tokens.pop())

    def expect(self, token):
        if not self.takes(token):
            raise ValueError(f"no Turtle: {self.tokens[-1][1]!r}, where {token!r} is to be")

    def statement(self):
        word = self.tokens[-1][1].lower()
        if word in ("@prefix", "prefix", "@base", "base"):
            self.tokens.pop()
            name = self.tokens.pop()[1] if word.endswith("prefix") else "base"
            self.prefixes[name] = self.node()[1:-1]
            self.base = self.prefixes.pop("base", self.base)
        else:
            self.predicates(self.node())
        if word not in ("prefix", "base"):
            self.expect(".")

    def predicates(self, subject):
        """What is said of a subject, up to the sign that ends it."""
        while not self.begins(".", "]"):
            predicate = f"<{RDF}type>" if self.takes("a") else self.node()
            self.triples.append((subject, predicate, self.node()))
            while self.takes(","):
                self.triples.append((subject, predicate, self.node()))
            while self.takes(";"):
                pass

    def node(self):
        kind, token = self.tokens.pop()
        if kind == "iri":
            return f"<{resolved(self.base, unescaped(token[1:-1]))}>"
        if kind == "name":
            prefix, colon, local = token.partition(":")
            return f"<{self.prefixes[prefix + colon]}{unescaped(local)}>"
        if kind in ("long", "short"):
            return self.literal(unescaped(token[3:-3] if kind == "long" else token[1:-1]))
        if kind == "number" or token in ("true", "false"):
            number = "double" if "e" in token.lower() else "decimal" if "." in token else "integer"
            return f'"{token}"^^<{XSD}{number if kind == "number" else "boolean"}>'
        if kind == "blank":
            return self.labels.setdefault(token, f"_:b{next(FRESH)}")
        if token == "[":
            node = f"_:b{next(FRESH)}"
            self.predicates(node)
            self.expect("]")
            return node
        if token == "(":
            return self.collection()
        raise ValueError(f"no Turtle: {token!r}, where a term is to be")

    def literal(self, text):
        text = '"' + text.translate(ESCAPES) + '"'
        if self.takes("^^"):
            return f"{text}^^{self.node()}"
        return text + self.tokens.pop()[1] if self.tokens[-1][0] == "tag" else text

    def collection(self):
        if self.takes(")"):
            return f"<{RDF}nil>"
        node = f"_:b{next(FRESH)}"
        self.triples.append((node, f"<{RDF}first>", self.node()))
        self.triples.append((node, f"<{RDF}rest>", self.collection()))
        return node


class Graph:
    """What a file in Turtle says."""

    def __init__(self, path, base=""):
        self.objects = collections.defaultdict(list)
        for subject, predicate, obj in Turtle(path, base).triples:
            self.objects[subject, predicate].append(obj)
            self.objects[predicate,].append(obj)

    def all(self, name, *subjects):
        """The objects of a predicate, of one subject or of any."""
        return self.objects.get((*subjects, f"<{name}>"), [])

    def one(self, name, subject):
        return next(iter(self.all(name, subject)), "")

    def items(self, node):
        while node and node != f"<{RDF}nil>":
            yield self.one(RDF + "first", node)
            node = self.one(RDF + "rest", node)


def path_of(term, manifest):
    """The file that an IRI names; where another base is declared, the file of that name beside the manifest."""
    place = urllib.parse.urlsplit(term[1:-1])
    path = pathlib.Path(urllib.parse.unquote(place.path))
    return path if place.scheme == "file" else manifest.parent / path.name


def kind_of(graph, entry):
    """The kind of a test, or why it is not run."""
    early = "QueryEvaluationTest>" if graph.all(MF + "result", entry) else "TestSyntax>"  # where no kind is named
    words = [re.split("[#/]", name[:-1])[-1] for name in graph.all(RDF + "type", entry) or [early]]
    if re.search("Rejected|Withdrawn|Obsoleted", graph.one(DAWGT + "approval", entry) + graph.one(RDFT + "approval", entry)):
        return NOT_RUN + "given up by its authors"
    if graph.all(REGIME, graph.one(MF + "action", entry)):
        return NOT_RUN + "an entailment regime"
    return next((kind for names, kind in KINDS.items() for word in words if re.fullmatch(names, word)), NOT_RUN + words[0])


def tests_of(manifest):
    graph = Graph(manifest, manifest.as_uri())
    for entry in (entry for entries in graph.all(MF + "entries") for entry in graph.items(entries)):
        action = graph.one(MF + "action", entry)
        file = path_of(graph.one(QT + "query", action) or action, manifest)
        data = [path_of(name, manifest) for name in graph.all(QT + "data", action)]
        name = f"{graph.one(MF + 'name', entry)} of {manifest}"
        kind = kind_of(graph, entry) if file.is_file() else NOT_RUN + "the file is missing"
        yield Test(kind, name, file, data, path_of(graph.one(MF + "result", entry), manifest))


def n_triples(paths):
    """The triples of files in Turtle or N-Triples, as lines; None where a file is in another form or missing."""
    try:
        triples = [triple for path in paths for triple in Turtle(path).triples]
    except (ValueError, LookupError, OSError):
        return None
    return "".join(" ".join(triple) + " .\n" for triple in triples).encode()


def turtle_rows(path):
    graph, rows = Graph(path), []
    for solution in graph.all(RS + "solution"):
        cells = graph.all(RS + "binding", solution)
        rows.append({graph.one(RS + "variable", cell)[1:-1]: graph.one(RS + "value", cell) for cell in cells})
    return [name[1:-1] for name in graph.all(RS + "resultVariable")], rows


def xml_rows(path):
    def term_of(cell):
        words = {re.sub("{.*}", "xml:", name): value for name, value in cell.attrib.items()}
        return term_text({"type": re.sub("{.*}", "", cell.tag), "value": cell.text or "", **words})

    root = xml.etree.ElementTree.parse(path)
    names = [variable.get("name") for variable in root.iterfind("{*}head/{*}variable")]
    return names, [{cell.get("name"): term_of(cell[0]) for cell in row} for row in root.find("{*}results")]


def json_rows(path):
    result = json.loads(path.read_bytes().decode("utf-8-sig"))
    rows = [{name: term_text(term) for name, term in row.items()} for row in result["results"]["bindings"]]
    return result["head"]["vars"], rows


READERS = {".srx": xml_rows, ".srj": json_rows, ".ttl": turtle_rows, ".n3": turtle_rows}


def normal(term):
    """A term with its tag in lower case, and a string without its datatype."""
    text, quote, rest = term.rpartition('"')
    return text + quote + ("" if rest == f"^^<{XSD}string>" else rest.lower() if rest.startswith("@") else rest)


def wanted_rows(path):
    """The columns and the rows of a stored result; None where it is in another form or missing."""
    try:
        names, rows = READERS[path.suffix](path)
    except (ValueError, LookupError, TypeError, OSError, SyntaxError):
        return None
    rows = [{f"?{name}": normal(term) for name, term in row.items() if term} for row in rows]
    return ["?" + name for name in names] or [""], rows


def same_answers(wanted, printed):
    names, *got = (line.split("\t") for line in printed.split("\n")[:-1])
    rows = [[row.get(name, "") for name in names] for row in wanted[1]], got
    masked = [sorted(["_:" if term[:2] == "_:" else term for term in row] for row in side) for side in rows]
    blank = [[row for row in side if any(term[:2] == "_:" for term in row)] for side in rows]
    return sorted(wanted[0]) == sorted(names) and masked[0] == masked[1] and renamed(*blank, set())


def renamed(wanted, got, pairs):
    """Whether the rows are the same where terms are paired one to one, with these pairs among them."""
    if not wanted:
        return True
    for place, row in enumerate(got):
        more = pairs | set(zip(wanted[0], row))
        one_to_one = len({one for one, _ in more}) == len({other for _, other in more}) == len(more)
        fits = one_to_one and all(one == other or one[:2] == other[:2] == "_:" for one, other in more)
        if fits and renamed(wanted[1:], got[:place] + got[place + 1 :], more):
            return True
    return False


def refusal(status, line, query):
    """What became of a query that is refused by name: a word is to stand where the line says."""
    found = CAUSE.fullmatch(f"{status} {line}")
    if not found:
        return None
    name = next(filter(None, found.groups()))
    here = not found["place"] or query[int(found["place"]) :].upper().startswith(name.encode())
    return REFUSED + name if here else DIFFERS


def asked(program, folder, data, query):
    """What the program says, which is to be the same in both forms."""
    pathlib.Path(folder, "d").write_bytes(data)
    pathlib.Path(folder, "q").write_bytes(query)
    got = [ask(program, folder, form) for form in ("tsv", "json")]
    return got[0] if got[0] == got[1] else (-1, "the forms differ\n", str(got))


def become(test, program, folder):
    """What became of a test, and all that was seen, as text."""
    if test.kind.startswith(NOT_RUN):
        return test.kind, ""
    data, query = test.file.read_bytes(), b"SELECT ?s { ?s <urn:p> <urn:o> }"
    data, query = (data, query) if test.kind in (GOOD_DATA, BAD_DATA) else (n_triples(test.data), data)
    status, line, printed = asked(program, folder, data or b"", query)
    sent = b"query\n%b\ndata\n%b\n" % (query, data or b"")
    seen = sent.decode("utf-8", "replace") + f"got {status} {line}{printed}"
    if refused := refusal(status, line, query):
        return refused, seen
    if test.kind == ANSWERS:
        wanted = wanted_rows(test.result)
        if data is None or wanted is None:
            return NOT_RUN + f"the form of the {'data' if data is None else 'result'} is not read", seen
        seen += f"\nwanted {wanted}"
        agrees = status == 0 and same_answers(wanted, printed)
    else:
        agrees = status == STATUS[test.kind]
    whys = (DECIDED + why for cases, sign, why in DECISIONS if (test.kind, status) in cases and re.search(sign, sent))
    return AGREES if agrees else next(whys, DIFFERS), seen


def main():
    program, top = (pathlib.Path(word).resolve() for word in sys.argv[1:])
    counts = collections.defaultdict(collections.Counter)
    with tempfile.TemporaryDirectory() as folder:
        for test in (test for path in sorted(top.rglob("manifest*")) if path.suffix in READERS for test in tests_of(path)):
            found, seen = become(test, program, folder)
            counts["other tests" if found == test.kind else test.kind][found] += 1
            if found == DIFFERS:
                print(f"{test.kind}: {test.name}\n{test.file}\n{seen}\n")
    for kind, some in sorted(counts.items()):
        print(f"{kind}: {some.total()}", *(f"{count:6} {found}" for found, count in sorted(some.items())), sep="\n")
    return int(not any(AGREES in some for some in counts.values()) or any(DIFFERS in some for some in counts.values()))


if __name__ == "__main__":
    sys.exit(main())
