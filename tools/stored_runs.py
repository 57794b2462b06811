#!/usr/bin/env python3
"""Runs the built program on each stored run, and compares what it wrote and its status with what is stored.

    tools/stored_runs.py PROGRAM [NAME..]

A stored run is a folder runs/NAME with

    args     the words after the program's name, one a line
    data/    the files that lie in the folder that the program runs in (none where it is missing)
    fill     further files of one byte over and over: lines NAME COUNT BYTE, the byte in hexadecimal
    stdout   all that it must write to standard output
    stderr   all that it must write to standard error
    status   the status that it must end with
    after/   the files that must be there when it has ended, beside those that were there (none where it is missing)

Each run has a fresh folder of its own, and must leave the other files there as they were. The status of the script is 0
where every run does what is stored, else 1."""
import pathlib
import shutil
import subprocess
import sys
import tempfile

RUNS = pathlib.Path(__file__).resolve().parent.parent / "runs"
SECONDS = 120
SHOWN = 400


def set_up(run, room):
    """Puts the files of a run into an empty folder."""
    if (run / "data").is_dir():
        shutil.copytree(run / "data", room, dirs_exist_ok=True)
    if (run / "fill").is_file():
        for line in (run / "fill").read_text().splitlines():
            name, count, byte = line.split()
            (room / name).write_bytes(bytes.fromhex(byte) * int(count))


def files_in(room):
    """Gives each file of a folder with its bytes."""
    return {path.relative_to(room): path.read_bytes() for path in sorted(room.rglob("*")) if path.is_file()}


def files_wanted(run, before):
    """Gives the files that must be there when a run has ended."""
    return {**before, **(files_in(run / "after") if (run / "after").is_dir() else {})}


def shown(value):
    """Gives the front of what was written, for a message."""
    text = repr(value)
    return text if len(text) <= SHOWN else text[:SHOWN] + f".. ({len(value)} bytes)"


def faults_of(program, run):
    """Runs the program once, and gives a line for each thing that is not as it is stored."""
    words = (run / "args").read_text().splitlines()
    with tempfile.TemporaryDirectory() as folder:
        room = pathlib.Path(folder)
        set_up(run, room)
        before = files_in(room)
        try:
            ended = subprocess.run(
                [program, *words], cwd=room, stdin=subprocess.DEVNULL, capture_output=True, timeout=SECONDS
            )
        except subprocess.TimeoutExpired:
            return [f"it had not ended after {SECONDS} seconds"]
        after = files_in(room)
    wanted = {
        "stdout": (run / "stdout").read_bytes(),
        "stderr": (run / "stderr").read_bytes(),
        "status": int((run / "status").read_text()),
    }
    got = {"stdout": ended.stdout, "stderr": ended.stderr, "status": ended.returncode}
    faults = [f"{part}: {shown(got[part])} in place of {shown(wanted[part])}" for part in wanted if got[part] != wanted[part]]
    if files_wanted(run, before) != after:
        faults.append("the files are not those that must be there")
    return faults


def main():
    if len(sys.argv) < 2:
        sys.exit(__doc__)
    program = pathlib.Path(sys.argv[1]).resolve()
    if not program.is_file():
        sys.exit(f"{program} is not there: build it first")
    runs = [RUNS / name for name in sys.argv[2:]] or sorted(path for path in RUNS.iterdir() if path.is_dir())
    failed = 0
    for run in runs:
        faults = faults_of(program, run)
        failed += bool(faults)
        print(f"run {run.name}: {'failed' if faults else 'ok'}", *faults, sep="\n    ", flush=True)
    print(f"stored runs: {len(runs) - failed} passed, {failed} failed")
    sys.exit(1 if failed or not runs else 0)


if __name__ == "__main__":
    main()
