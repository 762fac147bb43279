"""Files, outputs and a process that are not as they should be: what is no file, what cannot be written, and too little of memory, threads and files."""
import os
import resource
import signal
import subprocess
import threading

from expected.answers import Answer, answer, fault
from trials.running import short

SCRIPT = b'table t x:long from "t.csv"\nprint t\n'
TABLE = b"x\n1\n2\n"
FEED = b"t,t\na,7,3\n.\nt,t\na,8,4\n.\n"
CONTENT = {b"s": SCRIPT, b"f": FEED, b"t.csv": TABLE}
RUN = [b"run", b"s", b"f"]
NOBODY = 65_534


def expect(judge, name, wanted, *, words=RUN, may_end=(), **settings):
    """Runs the program in the folder as it is. It is to answer so, or to end with one of some statuses and the beginning of this answer."""
    status, wrote = judge.ran(words, **settings)
    if not (wanted.is_given_by(status, wrote) or status in may_end and wanted.is_begun_by(wrote)):
        ends = "".join(f" or {it}" for it in may_end)
        judge.note(name, f"status {wanted.status}{ends}, {short(wanted.shown())}", f"status {status}, {short(wrote)}")


def as_read(others):
    """The answer where some files have other bytes, or are not there."""
    return answer(RUN, CONTENT | others)


def put(judge, **others):
    """Puts the three files into the folder, without those that are to be made in another way."""
    judge.write({name: data for name, data in CONTENT.items() if name.decode().split(".")[0] not in others})


# Files


def each_file(judge, name, make, data):
    """Makes each of the three files in another way; they are then read as `data` says, or cannot be read where it is `None`."""
    for file in ("s", "t.csv", "f"):
        put(judge, **{file.split(".")[0]: True})
        make(judge.folder / file)
        expect(judge, f"{name} in place of {file}", as_read({file.encode(): data}))
        clear(judge.folder / file)


def clear(path):
    """Takes away what was made."""
    if path.is_dir() and not path.is_symlink():
        path.rmdir()
    else:
        path.unlink(missing_ok=True)


def link_to(place):
    return lambda path: path.symlink_to(place)


def of_files(judge):
    each_file(judge, "nothing", lambda path: None, None)
    each_file(judge, "a folder", lambda path: path.mkdir(), None)
    each_file(judge, "an empty file", lambda path: path.touch(), b"")
    each_file(judge, "a link to nothing", link_to("nowhere"), None)
    each_file(judge, "a link to itself", lambda path: path.symlink_to(path.name), None)
    each_file(judge, "an empty device", link_to("/dev/null"), b"")
    each_file(judge, "an endless device", link_to("/dev/zero"), bytes(67_108_865))
    each_file(judge, "a full device", link_to("/dev/full"), bytes(67_108_865))
    each_file(judge, "a file that fails as it is read", link_to("/proc/self/mem"), None)
    each_file(judge, "a device that is not there", link_to("/dev/none"), None)
    put(judge)
    for words in ([b"run", b"./s", b"../" + judge.folder.name.encode() + b"/f"], [b"run", bytes(judge.folder / "s"), b".//f"]):
        expect(judge, "files by longer paths", as_read({}), words=words)
    for name, told in ((b"a\0b", b"a\0b"), (b"a\rb", b'"a\rb"'), (b"n" * 5000, b"n" * 5000), (b"f/x", b"f/x"), (b" ", b" "), (b".", b".")):
        judge.write(CONTENT | {b"s": b'table t x:long from "' + name + b'"\n'})
        expect(judge, "a file name", Answer(3, b"fault,3,read," + told + b"\n"))
    of_one_file(judge)
    of_pipes(judge)
    of_no_leave(judge)


def of_one_file(judge):
    """One file in every place."""
    judge.write({b"s": SCRIPT.replace(b"t.csv", b"s")})
    expect(judge, "one file in all places", fault(5, "table", "t", 1, "header"), words=[b"run", b"s", b"s"])
    judge.write({b"s": b"#\n"})
    expect(judge, "one file in all places", fault(6, "feed", 1, "bad-tag"), words=[b"run", b"s", b"s"])


def of_pipes(judge):
    """Files that come through pipes, a byte at a time and in one piece."""
    for piece in (1, 1_000_000):
        put(judge, s=True, t=True, f=True)
        feeders = [threading.Thread(target=feed_pipe, args=(judge.folder / name.decode(), data, piece)) for name, data in CONTENT.items()]
        for name in CONTENT:
            os.mkfifo(judge.folder / name.decode())
        for feeder in feeders:
            feeder.start()
        expect(judge, f"pipes of {piece} bytes", as_read({}))
        for feeder in feeders:
            feeder.join()
    put(judge)
    with open(judge.folder / "f", "rb") as feed:
        expect(judge, "a feed from standard input", as_read({}), words=[b"run", b"s", b"/dev/stdin"], stdin=feed)


def feed_pipe(path, data, piece):
    with open(path, "wb", buffering=0) as pipe:
        for place in range(0, len(data), piece):
            pipe.write(data[place : place + piece])


def of_no_leave(judge):
    """Files that may not be read, where this process may become another that may not."""
    if os.getuid():
        as_another = {}
    elif subprocess.run([judge.program], user=NOBODY, cwd="/", stdout=subprocess.DEVNULL, stderr=subprocess.DEVNULL).returncode == 2:
        as_another = {"user": NOBODY, "group": NOBODY, "extra_groups": []}
    else:
        print("files that may not be read: not tried, since no other user may start the program")
        return
    judge.folder.chmod(0o755)
    for file in ("s", "t.csv", "f"):
        put(judge)
        (judge.folder / file).chmod(0)
        expect(judge, f"{file} without leave", as_read({file.encode(): None}), **as_another)
    put(judge)
    judge.folder.chmod(0o600)
    if as_another:
        expect(judge, "a folder without leave", fault(3, "read", "s"), preexec_fn=lambda: os.setuid(NOBODY))
    judge.folder.chmod(0o755)


# Standard output


def of_outputs(judge):
    put(judge)
    whole, usage = as_read({}), fault(2, "usage")
    for words, wanted in ((RUN, whole), ([], usage), ([b"run", b"s", b"none"], fault(3, "read", "none")), ([b"demo", b"3"], answer([b"demo", b"3"], {}))):
        of_failing_output(judge, words)
        of_odd_process(judge, words, wanted)
    for most in range(1, len(whole.shown())):
        of_short_output(judge, most, whole)


def fails(judge, name, words, **settings):
    """Holds the program to its status where nothing can be written."""
    status, _ = judge.ran(words, **settings)
    if status != 10:
        judge.note(f"{name}: {words}", "status 10", f"status {status}")


def of_failing_output(judge, words):
    """Outputs that take nothing."""
    with open("/dev/full", "wb") as full:
        fails(judge, "a full device", words, stdout=full)
    fails(judge, "a closed output", words, stdout=None, preexec_fn=lambda: os.close(1))
    fails(judge, "all three closed", words, stdin=None, stdout=None, stderr=None, preexec_fn=lambda: os.closerange(0, 3))
    with open(os.devnull, "rb") as reading:
        fails(judge, "an output that is open for reading alone", words, stdout=reading)
    taken, given = os.pipe()
    os.close(taken)
    for handling in (signal.SIG_DFL, signal.SIG_IGN):
        fails(judge, f"a pipe that nobody reads, {handling.name}", words, stdout=given, restore_signals=False, preexec_fn=lambda: signal.signal(signal.SIGPIPE, handling))
    os.close(given)


def of_odd_process(judge, words, wanted):
    """A process that lacks what it does not need."""
    expect(judge, "a closed input", wanted, words=words, stdin=None, preexec_fn=lambda: os.close(0))
    expect(judge, "a closed standard error", wanted, words=words, stderr=None, preexec_fn=lambda: os.close(2))
    expect(judge, "no environment", wanted, words=words, env={})


def of_short_output(judge, most, wanted):
    """A file that takes so many bytes and no more."""

    def bounded():
        signal.signal(signal.SIGXFSZ, signal.SIG_IGN)
        resource.setrlimit(resource.RLIMIT_FSIZE, (most, most))

    path = judge.folder / "wrote"
    with open(path, "wb") as file:
        status, _ = judge.ran(RUN, stdout=file, preexec_fn=bounded, restore_signals=False)
    if status != 10 or path.read_bytes() != wanted.shown()[:most]:
        judge.note(f"a file of {most} bytes", f"status 10, {short(wanted.shown()[:most])}", f"status {status}, {short(path.read_bytes())}")


# Little of what a process needs


def bounded(*limits):
    """Sets limits of a process to come."""

    def set_limits():
        for what, most in limits:
            resource.setrlimit(what, (most, most))

    return set_limits


def of_process(judge):
    put(judge)
    usage = fault(2, "usage")
    expect(judge, "ten thousand words", usage, words=[b"run"] + [b"s"] * 10_000)
    expect(judge, "a long word", usage, words=[b"run", b"s", b"f", b"--workers", b"1" * 100_000])
    expect(judge, "a long option", usage, words=[b"run", b"s", b"f", b"--" + b"x" * 100_000])
    expect(judge, "one further file", as_read({}), preexec_fn=bounded((resource.RLIMIT_NOFILE, 4)))
    crowd = RUN + [b"--workers", b"8", b"--callers", b"4", b"--snaps", b"2"]
    expect(judge, "no further thread", as_read({}), words=crowd, may_end=(1,), preexec_fn=nobody_alone)
    of_gone_folder(judge)
    of_memory(judge)


def nobody_alone():
    """Becomes another user, where this one is not held to its threads, that may have no further thread."""
    if not os.getuid():
        os.setgid(NOBODY)
        resource.setrlimit(resource.RLIMIT_NPROC, (1, 1))
        os.setuid(NOBODY)
    else:
        resource.setrlimit(resource.RLIMIT_NPROC, (1, 1))


def of_gone_folder(judge):
    """A run in a folder that is not there any more."""
    gone = judge.folder / "gone"
    gone.mkdir()
    expect(judge, "a folder that is gone", fault(3, "read", "s"), cwd=gone, preexec_fn=lambda: os.rmdir(gone))


def of_memory(judge):
    """Runs with ever more memory, from what the process needs to start until the run has enough."""
    rows = 20_000
    script = b'table t k:long s:text from "t.csv"\nj = join t t on k take o = s\ng = agg j by o do n = count, m = max k\nr = sort g -m\nprint r\npublish r 100\n'
    table = b"k,s\n" + b"".join(b"%d,%d\n" % (i, i % 50) for i in range(rows))
    feed = b"".join(b"t,t\nr,%d,%d\na,%d,%d,x%d\n.\n" % (i, i, rows + i, rows + i, i % 7) for i in range(20))
    content = {b"s": script, b"t.csv": table, b"f": feed}
    for words in (RUN, RUN + [b"--workers", b"2", b"--callers", b"2", b"--snaps", b"3"]):
        judge.write(content)
        wanted = answer(words, content)
        most = least_memory(judge)
        while True:
            status, wrote = judge.ran(words, preexec_fn=bounded((resource.RLIMIT_AS, most), (resource.RLIMIT_CORE, 0)))
            if wanted.is_given_by(status, wrote):
                break
            if status != 1 or not wanted.is_begun_by(wrote) or most > 2**32:
                judge.note(f"{most:,} bytes of memory: {words}", f"status 1 or {wanted.status}", f"status {status}, {short(wrote)}")
            if most > 2**32:
                break
            most = most * 21 // 20 // 4096 * 4096


def least_memory(judge):
    """The least memory with which the program answers words of no command."""
    most = 2**20
    while judge.ran([], stderr=subprocess.DEVNULL, preexec_fn=bounded((resource.RLIMIT_AS, most), (resource.RLIMIT_CORE, 0))) != (2, b"fault,2,usage\n"):
        most = most * 21 // 20 // 4096 * 4096
        if most > 2**32:
            raise SystemExit("the program does not start")
    return most


def hold(judge):
    """Tries all of them."""
    for part in (of_files, of_outputs, of_process):
        part(judge)
