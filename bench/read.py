#!/usr/bin/env python3
"""Times the reader of N-Triples on made data, beside C parsers where they are installed. Measured, not promised.

    bench/read.py PROGRAM [MEGABYTES]

PROGRAM is the built bench `crates/bench_reading/out/bench_reading`. The script writes MEGABYTES (100 where none is said)
of varied lines: IRIs short and long, blank nodes, plain, tagged and typed literals, some with escapes, some beyond
ASCII, some lines that stand twice, comments and blank lines. It prints for each parser the seconds, MB a second and the
most memory that it had; `serdi` writes the triples again to nowhere, `rapper` counts them."""
import os
import random
import shutil
import subprocess
import sys
import tempfile
import time

XSD = "http://www.w3.org/2001/XMLSchema#"
TYPE = "<http://www.w3.org/1999/02/22-rdf-syntax-ns#type>"
WORDS = "so long and thanks for all the fish grüße 文字 Дуглас naïve cafe übung".split()


def a_text(pick):
    return " ".join(pick.choice(WORDS) for _ in range(pick.randint(1, 12)))


def an_object(pick, people):
    kind = pick.randrange(10)
    if kind < 3:
        return f"<http://example.org/person/{pick.randrange(people)}>"
    if kind == 3:
        return f"_:b{pick.randrange(people)}"
    if kind == 4:
        return f'"{pick.randrange(10 ** 6)}"^^<{XSD}integer>'
    if kind == 5:
        return f'"19{pick.randrange(100):02}-03-11T00:00:00Z"^^<{XSD}dateTime>'
    if kind == 6:
        return f'"{a_text(pick)}"@en-GB'
    if kind == 7:
        return f'"{a_text(pick)}\\n\\"{a_text(pick)}\\" caf\\u00E9"'
    return f'"{a_text(pick)}"'


def lines(size, pick):
    people, made, kept = 100_000, 0, ""
    while made < size:
        chance = pick.randrange(200)
        if chance == 0:
            line = "# a comment\n"
        elif chance == 1:
            line = "\n"
        elif chance == 2 and kept:
            line = kept
        else:
            subject = f"_:b{pick.randrange(people)}" if chance < 20 else f"<http://example.org/person/{pick.randrange(people)}>"
            predicate = TYPE if chance < 40 else f"<http://xmlns.com/foaf/0.1/property{chance % 17}>"
            line = kept = f"{subject} {predicate} {an_object(pick, people)} .\n"
        made += len(line.encode())
        yield line


def run(name, words, size):
    start = time.monotonic()
    ran = subprocess.Popen(words, stdout=subprocess.DEVNULL, stderr=subprocess.DEVNULL)
    _, status, usage = os.wait4(ran.pid, 0)
    took = time.monotonic() - start
    print(f"{name}: status {os.waitstatus_to_exitcode(status)}, {took:.2f} s, {size / 1e6 / took:.0f} MB/s, {usage.ru_maxrss / 1024:.0f} MB at most")


def main():
    if len(sys.argv) not in (2, 3):
        sys.exit(__doc__)
    program, megabytes = os.path.abspath(sys.argv[1]), int(sys.argv[2]) if len(sys.argv) == 3 else 100
    with tempfile.TemporaryDirectory() as room:
        data = os.path.join(room, "data.nt")
        with open(data, "w", encoding="utf-8") as file:
            file.writelines(lines(megabytes * 1_000_000, random.Random(7)))
        size = os.path.getsize(data)
        print(f"{size / 1e6:.0f} MB")
        run("bench_reading", [program, data], size)
        for name, words in (("serdi", ["serdi", "-i", "ntriples", "-o", "ntriples", data]), ("rapper", ["rapper", "-q", "-c", "-i", "ntriples", data])):
            if shutil.which(name):
                run(name, words, size)


if __name__ == "__main__":
    main()
