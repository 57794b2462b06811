#!/usr/bin/env python3
"""Times the program on made graphs: prints seconds, peak memory and rows. Measured, not promised.

    bench/ask.py PROGRAM [TRIPLES [ENGINE]]

It writes a ring with tags of TRIPLES triples (100,000 where none is said), loads it, and asks over the data and over the
index: for each node its next one, and its tag if it has one; for the nodes with one tag of five. Then it asks for paths of
twelve edges over layers that end nowhere, beside one chain that does not: 1,112 triples, and ten times as many. ENGINE is
the built bench `crates/bench_engine/out/bench_engine`: with it the share of each step is printed too."""
import os
import subprocess
import sys
import tempfile
import time

OPTIONAL = "SELECT * { ?x <urn:next> ?y OPTIONAL { ?x <urn:tag> ?t } }\n"
TAGGED = 'SELECT * { ?x <urn:tag> "t4" }\n'
PATHS = "SELECT * {" + "".join(f" ?x{i} <urn:p> ?x{i + 1} ." for i in range(12)) + " }\n"


def ring(count):
    """Gives about COUNT triples: each node has a next one, and each second node a tag."""
    nodes = max(1, -(-2 * count // 3))
    for i in range(nodes):
        yield f"<urn:n{i}> <urn:next> <urn:n{(7 * i + 1) % nodes}> .\n"
        if i % 2 == 0:
            yield f'<urn:n{i}> <urn:tag> "t{i % 10}" .\n'


def layers(width):
    """Gives eleven layers of edges between WIDTH nodes each, all to all, and a chain of twelve."""
    for i in range(11):
        for j in range(width):
            for k in range(width):
                yield f"<urn:n/{i}/{j}> <urn:p> <urn:n/{i + 1}/{k}> .\n"
    for i in range(12):
        yield f"<urn:c{i}> <urn:p> <urn:c{i + 1}> .\n"


def write(room, name, pieces):
    path = os.path.join(room, name)
    with open(path, "w") as file:
        file.writelines(pieces)
    return path


def run(name, words):
    """Runs the program, and prints how long it took and how much it had."""
    start = time.monotonic()
    process = subprocess.Popen(words, stdout=subprocess.PIPE)
    text = process.stdout.read()
    _, status, usage = os.wait4(process.pid, 0)
    took = time.monotonic() - start
    status, rows = os.waitstatus_to_exitcode(status), text.count(b"\n")
    print(f"{name}: status {status}, {rows} lines, {took:.2f} s, {usage.ru_maxrss / 1024:.0f} MB at most", flush=True)
    if status != 0:
        sys.exit(status)


def time_data(room, program, engine, name, data, queries):
    """The index of some data, and each query over both."""
    index = os.path.join(room, name + ".index")
    print(f"{name}: {os.path.getsize(data) / 1e6:.1f} MB of data")
    run("  load", [program, "load", data, index])
    print(f"  index: {os.path.getsize(index) / 1e6:.1f} MB")
    for title, query in queries:
        run(f"  query, {title}", [program, "query", index, query, "tsv"])
        run(f"  ask, {title}", [program, "ask", data, query, "tsv"])
        if engine:
            print(f"  steps, {title}:", flush=True)
            subprocess.run([engine, data, query], check=True)


def main():
    if len(sys.argv) not in (2, 3, 4):
        sys.exit(__doc__)
    program = os.path.abspath(sys.argv[1])
    count = int(sys.argv[2]) if len(sys.argv) > 2 else 100_000
    engine = os.path.abspath(sys.argv[3]) if len(sys.argv) > 3 else None
    with tempfile.TemporaryDirectory() as room:
        optional, tagged = write(room, "optional", [OPTIONAL]), write(room, "tagged", [TAGGED])
        paths = write(room, "paths", [PATHS])
        queries = [("an OPTIONAL", optional), ("one tag", tagged)]
        time_data(room, program, engine, "ring", write(room, "ring", ring(count)), queries)
        time_data(room, program, engine, "layers", write(room, "layers", layers(10)), [("paths", paths)])
        time_data(room, program, engine, "wide layers", write(room, "wide", layers(32)), [("paths", paths)])


if __name__ == "__main__":
    main()
