"""The whole answer of the program: its status, and the bytes that it writes."""
import dataclasses
import functools
import re
import sys

from expected import files, made, script, texts, words
from expected.forms import Source, Tick
from expected.records import printed
from expected.runs import Run, composed

MOST_KEPT = 16_777_216
sys.setrecursionlimit(20_000)


@dataclasses.dataclass
class Snapshots:
    """What the callers of a run may write: each some snapshots at steps that do not fall, and one of the last step."""

    callers: int
    snaps: int
    last: int
    text: callable = None

    def ends(self, wrote, place):
        """The place behind all snapshots that stand in some bytes from a place on, or `None` where they are none that may. Bytes that end within a
        snapshot are read to their end."""
        for caller in range(self.callers):
            step = 0
            for call in range(self.snaps + 1):
                if place == len(wrote):
                    return place
                step = self.step(wrote, place, caller, call, step)
                if step is None:
                    return None
                place = min(place + len(self.text(caller, call, step)), len(wrote))
        return place

    def step(self, wrote, place, caller, call, least):
        """The step of the snapshot that stands at a place, or `None`."""
        told = re.compile(rb"snap,\d+,\d+,(\d+),").match(wrote, place)
        steps = [int(told[1])] if told else range(least, self.last + 1)
        for step in steps:
            may = least <= step <= self.last and (call < self.snaps or step == self.last)
            if may and agree(self.text(caller, call, step), wrote[place:]):
                return step
        return None


def agree(text, wrote):
    """Whether one of the two begins with the other."""
    return text.startswith(wrote) if len(wrote) < len(text) else wrote.startswith(text)


@dataclasses.dataclass
class Answer:
    """A status, and the bytes: those before the snapshots, the snapshots, and those behind them."""

    status: int
    head: bytes
    tail: bytes = b""
    snapshots: Snapshots = dataclasses.field(default_factory=lambda: Snapshots(0, 0, 0))

    def is_begun_by(self, wrote):
        """Whether some bytes are a prefix of what may be written."""
        return self.place_behind(wrote) is not None

    def place_behind(self, wrote):
        """How many of the last bytes that may stand behind some bytes already stand there, or `None` where they are no prefix."""
        if len(wrote) < len(self.head):
            return 0 if self.head.startswith(wrote) else None
        if not wrote.startswith(self.head):
            return None
        place = self.snapshots.ends(wrote, len(self.head))
        return None if place is None or not self.tail.startswith(wrote[place:]) else len(wrote) - place

    def is_given_by(self, status, wrote):
        """Whether this is the whole answer."""
        return status == self.status and len(wrote) >= len(self.head) + len(self.tail) and self.place_behind(wrote) == len(self.tail)

    def shown(self):
        """The bytes, as far as they do not depend on the callers."""
        return self.head + (b"(snapshots)\n" if self.snapshots.callers else b"") + self.tail


def fault(status, *fields):
    """The answer that is a fault record alone."""
    return Answer(status, printed("fault", status, *fields))


class Unread(Exception):
    """A file cannot be read: its name."""


def load(content, name):
    """The bytes of a file, by its name."""
    if (data := content.get(name.encode())) is None:
        raise Unread(name)
    return data


def read(content, command):
    """The script of a command, and its run by how many words the callers may keep."""
    found = script.read_script(load(content, command.positional[0]))
    if command.name == "watch" and command.positional[2] not in found.nodes:
        raise words.NoCommand(command.positional[2])
    sources = {name: node for name, node in found.nodes.items() if isinstance(node.form, Source)}
    opening = {name: table(content, name, node) for name, node in sources.items()}
    steps = feed(load(content, command.positional[1]), {name: node.columns for name, node in sources.items()})
    return found, opening, steps


class Refused(Exception):
    """A file is refused: a status and the fields of the record."""


def table(content, name, node):
    """The rows with which a source is opened."""
    if node.form.file is None:
        return {}
    try:
        return files.read_table(load(content, node.form.file), node.columns)
    except files.TextFault as refused:
        raise Refused(5, "table", name, *refused.args) from None


def feed(data, sources):
    """The steps of a feed."""
    try:
        return files.read_feed(data, sources)
    except files.TextFault as refused:
        raise Refused(6, "feed", *refused.args) from None


def updates(run, found):
    """The updates of the printed nodes."""
    printed_nodes = [found.nodes[name] for name in found.printed()]
    return b"".join(texts.update_text(step, node.name, node.columns, ticks[node.name]) for step, ticks in enumerate(run.states) for node in printed_nodes)


def messages(run, node, first, count, every):
    """The messages of a window of a table."""
    told, kept, before = [], [], {}
    for step, ticks in enumerate(run.states):
        tick = ticks[node.name]
        kept = composed(kept, tick.kept) if step else []
        if step % every == 0 or step == len(run.states) - 1:
            now = dict(list(tick.new.items())[first : first + count])
            pairs = [(old, new) for old, new in kept if old in before and new in now]
            told.append(texts.update_text(step, node.name, node.columns, Tick(before, now, pairs)))
            before, kept = now, [(key, key) for key in tick.new]
    return b"".join(told)


def snapshots(run, found, options):
    """What the callers may write."""
    names = list(found.published)
    if not names:
        return Snapshots(0, 0, 0)

    @functools.lru_cache(None)
    def text(caller, call, step):
        name = names[(caller + call) % len(names)]
        return texts.snapshot_text(caller, call, step, name, run.states[step][name].new)

    return Snapshots(options["callers"], options["snaps"], len(run.states) - 1, text)


def kept_words(found, options):
    """The words that all callers keep."""
    largest = max((script.words_of(limit, found.nodes[name]) for name, limit in found.published.items()), default=0)
    return options["callers"] * (options["snaps"] + 1) * largest


def of_run(command, found, run):
    """The answer of a run that is read."""
    last = len(run.states) - 1
    tail = printed("fault", run.fault[0], *told(run)) if run.fault else printed("done", last)
    status = run.fault[0] if run.fault else 0
    if last < 0:
        return Answer(status, tail)
    if command.name == "watch":
        return Answer(status, messages(run, found.nodes[command.positional[2]], *command.positional[3:], command.options["every"]), tail)
    return Answer(status, updates(run, found), tail, snapshots(run, found, command.options))


def told(run):
    """The fields of the record of a spoiled step."""
    status, *fields = run.fault
    return [{7: "step", 8: "node", 9: "publish"}[status], len(run.states), *fields]


def summary(steps):
    """The answer of a made run."""
    found = script.read_script(made.SCRIPT)
    sources = {name: node.columns for name, node in found.nodes.items() if isinstance(node.form, Source)}
    run = Run(found, {"trades": {}, "ref": made.REF}, feed(made.feed(steps), sources), found.published)
    sizes = [printed("size", name, len(run.states[-1][name].new)) for name in found.nodes]
    return Answer(0, printed("demo", steps, updates(run, found).count(b"\n")) + b"".join(sizes) + printed("done", steps))


def answer(given, content):
    """The answer to some words, where files have these bytes: a dictionary from names to bytes."""
    command = words.command(given)
    if command is None:
        return fault(2, "usage")
    if command.name == "demo":
        return summary(command.positional[0])
    try:
        found, opening, steps = read(content, command)
    except Unread as unread:
        return fault(3, "read", *unread.args)
    except script.ScriptFault as refused:
        return fault(4, "script", *refused.args)
    except words.NoCommand as missing:
        return fault(12, "watch", *missing.args)
    except Refused as refused:
        return fault(*refused.args)
    if (kept := kept_words(found, command.options)) > MOST_KEPT:
        return fault(2, "kept", kept)
    return of_run(command, found, Run(found, opening, steps, found.published))
