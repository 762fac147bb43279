"""A script: its lines in order, and the first that is refused."""
import dataclasses

from expected import forms
from expected.grammar import Reader, Refused, tokens_of

MOST_BYTES = 1_048_576
MOST_ROWS = 4_194_304
MOST_COLUMNS = 32
MOST_NODES = 256
KEY_BOUND = 2**62
MOST_WORDS = 1_048_576


class ScriptFault(Exception):
    """The first refused line, and a kind."""


@dataclasses.dataclass
class Node:
    """A defined table."""

    form: forms.Form
    columns: list
    bound: int

    @property
    def name(self):
        return self.form.name


class Script:
    """What the lines so far have defined. Nodes, printed names and published names with their limits stand by name, in order."""

    def __init__(self):
        self.nodes, self.prints, self.published = {}, set(), {}

    def words(self):
        """The words of all published tables."""
        return 2 + 2 * sum(words_of(limit, self.nodes[name]) for name, limit in self.published.items())

    def printed(self):
        """The printed nodes, in order of their lines."""
        return [name for name in self.nodes if name in self.prints]

    def show(self, line):
        """Takes a line that prints or publishes."""
        is_print = isinstance(line, forms.Print)
        if line.node not in self.nodes:
            raise Refused("unknown-name")
        if line.node in (self.prints if is_print else self.published):
            raise Refused("taken-name")
        if is_print:
            self.prints.add(line.node)
            return
        if not 1 <= line.limit <= MOST_ROWS:
            raise Refused("number-range")
        self.published[line.node] = line.limit
        if self.words() > MOST_WORDS:
            raise Refused("too-wide")

    def define(self, form):
        """Takes a line that defines a node."""
        if [name for name in form.inputs if name not in self.nodes]:
            raise Refused("unknown-name")
        inputs = [self.nodes[name].columns for name in form.inputs]
        if [column for columns, used in zip(inputs, form.used()) for column in used if column not in dict(columns)]:
            raise Refused("unknown-column")
        if form.name in self.nodes:
            raise Refused("taken-name")
        names = self.names(form, inputs)
        if len(set(names)) != len(names):
            raise Refused("taken-column")
        try:
            form.kinds_fit(*inputs)
        except forms.WrongKind:
            raise Refused("wrong-kind") from None
        if form.number() > MOST_ROWS:
            raise Refused("number-range")
        if len(names) > MOST_COLUMNS:
            raise Refused("too-many-columns")
        if len(self.nodes) == MOST_NODES:
            raise Refused("too-many-nodes")
        bound = form.bound([self.nodes[name].bound for name in form.inputs])
        if bound >= KEY_BOUND:
            raise Refused("key-space")
        form.bind(*inputs)
        self.nodes[form.name] = Node(form, form.columns(*inputs), bound)

    def names(self, form, inputs):
        """The names of the columns of the result, of which the kinds may not be known yet."""
        if isinstance(form, forms.View):
            return [name for name, _ in inputs[0]] + [name for name, _ in form.made]
        return [name for name, _ in form.columns(*inputs)]


def words_of(limit, node):
    """The words of a published table."""
    return 1 + limit * (1 + len(node.columns))


def lines_of(data):
    """The lines of a script, each without the carriage return before its line feed."""
    *whole, last = data.split(b"\n")
    return [line.removesuffix(b"\r") for line in whole] + [last]


def take_line(script, line):
    """Takes a line in, which may be skipped."""
    try:
        text = line.decode()
    except UnicodeDecodeError:
        raise Refused("not-utf8") from None
    seen = text.strip(" \t")
    if not seen or seen.startswith("#"):
        return
    form = Reader(tokens_of(text)).line()
    if isinstance(form, forms.Form):
        script.define(form)
    else:
        script.show(form)


def read_script(data):
    """What the bytes of a script define."""
    if len(data) > MOST_BYTES:
        raise ScriptFault(0, "too-long")
    script = Script()
    for number, line in enumerate(lines_of(data), 1):
        try:
            take_line(script, line)
        except Refused as refused:
            raise ScriptFault(number, *refused.args) from None
    return script
