#!/usr/bin/env python3
"""Times the program on the index of a made graph: prints seconds and peak memory. Measured, not promised.

    bench/index.py PROGRAM [FILE.nt [QUERY.rq]]

It loads the data into an index, checks it, and asks one selective query over it: one pattern with an IRI at two places.
Without a file it writes a million triples of people who know one another, ten for each, under ten predicates."""
import os
import subprocess
import sys
import tempfile
import time

BASE = "http://example.org/"
COUNT = 1_000_000


def lines():
    """Gives COUNT triples: ten for each person, to people spread over all."""
    people = COUNT // 10
    for number in range(COUNT):
        person, other = number // 10, (number * 7919 + 13) % people
        yield f"<{BASE}p{person}> <{BASE}knows{number % 10}> <{BASE}p{other}> .\n"


def measured(words):
    """Runs the program once, and gives its status, its output, its seconds, and the most memory it had in megabytes."""
    start = time.monotonic()
    with tempfile.TemporaryFile() as out:
        child = subprocess.Popen(words, stdout=out)
        _, status, usage = os.wait4(child.pid, 0)
        took = time.monotonic() - start
        out.seek(0)
        return os.waitstatus_to_exitcode(status), out.read(), took, usage.ru_maxrss / 1024


def main():
    if len(sys.argv) not in (2, 3, 4):
        sys.exit(__doc__)
    program = os.path.abspath(sys.argv[1])
    with tempfile.TemporaryDirectory() as room:
        data, query, index = (os.path.join(room, name) for name in ("data", "query", "index"))
        if len(sys.argv) > 2:
            data = os.path.abspath(sys.argv[2])
        else:
            with open(data, "w") as file:
                file.writelines(lines())
        if len(sys.argv) > 3:
            query = os.path.abspath(sys.argv[3])
        else:
            with open(query, "w") as file:
                file.write(f"SELECT * {{ <{BASE}p77> <{BASE}knows3> ?b }}\n")
        print(f"data: {os.path.getsize(data) / 1e6:.1f} MB")
        for words in (["load", data, index], ["check", index], ["query", index, query, "tsv"]):
            status, out, took, peak = measured([program, *words])
            said = out.decode().splitlines()
            shown = said[0] if len(said) == 1 else f"{len(said) - 1} rows"
            print(f"{words[0]}: status {status}, {took:.2f} s, {peak:.0f} MB at most: {shown}")
            if status:
                sys.exit(status)
        print(f"index: {os.path.getsize(index) / 1e6:.1f} MB")


if __name__ == "__main__":
    main()
