"""How the program is run, and how its answers are judged."""
import dataclasses
import os
import pathlib
import resource
import shutil
import subprocess
import tempfile

from expected.answers import Answer, answer

SECONDS = 300
SHOWN_BYTES = 400


def lines(text):
    """The bytes of a text in which ` / ` stands for a line end. The last line has one too, where there is any."""
    return (text.replace(" / ", "\n") + "\n").encode() if text else b""


@dataclasses.dataclass
class Trial:
    """Words and files. What is to be answered is said by the rules of the pages, and may also be written out."""

    name: str
    words: list
    content: dict
    wanted: Answer = None

    def answers(self):
        """What must be answered: as it is written out, where it is, and as the reader of the rules says."""
        said = answer(self.words, self.content)
        return [self.wanted, said] if self.wanted else [said]


def trial(name, script, feed="", *, words=("run", "s", "f"), status=None, wrote=None, **tables):
    """A trial of a script and a feed, which are texts of lines or bytes, with table files by the names before `.csv`."""
    content = {b"s": script, b"f": feed} | {f"{it}.csv".encode(): text for it, text in tables.items()}
    content = {it: text if isinstance(text, bytes) else lines(text) for it, text in content.items() if text is not None}
    wanted = Answer(status, lines(wrote)) if wrote is not None else None
    return Trial(name, [it if isinstance(it, bytes) else it.encode() for it in words], content, wanted)


def short(data):
    """Some bytes as they are shown."""
    return repr(data if len(data) <= SHOWN_BYTES else data[:SHOWN_BYTES] + b"..")[1:]


class Judge:
    """Runs a program in a scratch folder, and keeps what it answered wrongly."""

    def __init__(self, program, gibibytes):
        self.program, self.runs, self.wrong, self.bytes = str(program), 0, [], gibibytes * 2**30
        self.folder = pathlib.Path(tempfile.mkdtemp(prefix="hostile"))

    def close(self):
        shutil.rmtree(self.folder)

    def limited(self):
        """Lets this process take so much memory alone."""
        resource.setrlimit(resource.RLIMIT_AS, (self.bytes, self.bytes))

    def write(self, content):
        """Puts these files, and no others, into the folder."""
        for path in self.folder.iterdir():
            path.unlink()
        for name, data in content.items():
            (self.folder / os.fsdecode(name)).write_bytes(data)

    def ran(self, words, **more):
        """The status and the bytes of a run in the folder. The status is negative where a signal ended it, and `None` where it took too long."""
        self.runs += 1
        settings = {"cwd": self.folder, "stdin": subprocess.DEVNULL, "stdout": subprocess.PIPE, "stderr": subprocess.PIPE} | more
        try:
            ran = subprocess.run([self.program, *words], timeout=SECONDS, **settings)
        except subprocess.TimeoutExpired as late:
            return None, late.stdout or b""
        if ran.stderr:
            self.note(f"{words}", "nothing on standard error", short(ran.stderr))
        return ran.returncode, ran.stdout or b""

    def note(self, name, wanted, got):
        """Keeps a wrong answer."""
        self.wrong.append(name)
        print(f"WRONG {name}\n  wanted {wanted}\n  got    {got}", flush=True)

    def hold(self, tried):
        """Tries a trial."""
        self.write(tried.content)
        status, wrote = self.ran(tried.words)
        for wanted in tried.answers():
            if not wanted.is_given_by(status, wrote):
                inputs = ", ".join(f"{os.fsdecode(name)} {short(data)}" for name, data in tried.content.items())
                self.note(f"{tried.name}: {b' '.join(tried.words)!r} {inputs}", f"status {wanted.status}, {short(wanted.shown())}", f"status {status}, {short(wrote)}")

    def hold_all(self, trials):
        for tried in trials:
            self.hold(tried)
