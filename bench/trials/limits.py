"""Runs of the inputs at the limits, with the time and the memory that each takes."""
import os
import signal
import subprocess

from expected.answers import answer
from trials.limit_inputs import MadeRun, limits, pieces
from trials.running import SHOWN_BYTES, short

SECONDS = 900
TIME = "/usr/bin/time"


def write(folder, files):
    """Puts these files, and no others, into the folder."""
    for path in folder.iterdir():
        path.unlink()
    for name, data in files.items():
        with open(folder / name, "wb") as file:
            file.writelines(pieces(data))


def measured(judge, words):
    """Runs the program: its status, seconds of the clock, seconds of processors, and the most memory in KiB; the status alone, `None`, where there is
    no end."""
    judge.runs += 1
    command = [TIME, "-q", "-f", "%e %U %S %M", "-o", "took", judge.program, *words]
    with open(judge.folder / "wrote", "wb") as out:
        child = subprocess.Popen(command, cwd=judge.folder, stdin=subprocess.DEVNULL, stdout=out, stderr=subprocess.DEVNULL, preexec_fn=judge.limited, start_new_session=True)
        try:
            status = child.wait(SECONDS)
        except subprocess.TimeoutExpired:
            os.killpg(child.pid, signal.SIGKILL)
            child.wait()
            return None, 0, 0, 0
    clock, user, system, most = map(float, (judge.folder / "took").read_text().split())
    return status, clock, user + system, most


def is_as_wanted(limit, status, path):
    """Whether a run answered as it must."""
    if limit.wrote is None:
        content = {name.encode(): b"".join(pieces(data)) for name, data in limit.files.items()}
        return answer([word.encode() for word in limit.words], content).is_given_by(status, path.read_bytes())
    if status != limit.status:
        return False
    if isinstance(limit.wrote, MadeRun):
        return limit.wrote.fits(path.read_bytes())
    with open(path, "rb") as file:
        return all(file.read(len(piece)) == piece for piece in pieces(limit.wrote)) and not file.read(1)


def hold_one(judge, limit):
    """Runs one input, and prints its line of the table."""
    write(judge.folder, limit.files)
    status, clock, processors, most = measured(judge, limit.words)
    print(f"| {limit.what} | {limit.given} | {status} | {clock:.2f} | {processors:.2f} | {most / 1024:,.0f} |", flush=True)
    if not is_as_wanted(limit, status, judge.folder / "wrote"):
        with open(judge.folder / "wrote", "rb") as file:
            judge.note(f"{limit.what}: {limit.given}", f"status {limit.status}", f"status {status}, {short(file.read(SHOWN_BYTES + 1))}")


def hold(judge, words=("",)):
    """Tries all of them whose name has one of some words, and prints a table."""
    print("| limit | input | status | seconds | of processors | MiB |\n|---|---|---:|---:|---:|---:|")
    for limit in limits():
        if any(word in f"{limit.what}: {limit.given}" for word in words):
            hold_one(judge, limit)
