"""A run: every table at every step, by the definitions, up to the first spoiled step."""
from expected.files import KEY_BOUND, MOST_ROWS
from expected.forms import NodeFault, Source, Tick


class Spoiled(Exception):
    """A step is spoiled: a status, and the fields of its record behind the step."""


def range_of(changes, key):
    """The record whose range holds a key, or `None`."""
    return next((change for change in changes if change.values[0] <= key <= change.values[1]), None)


def check_removed(block, rows):
    for change in block.r:
        key, last = change.values
        while key in rows:
            key += 1
        if key <= last:
            raise Spoiled(7, change.record, "removed-absent", key)


def moved(block, key):
    shift = range_of(block.s, key)
    return key + shift.values[2] if shift else key


def check_shifts(block, survivors):
    before = None
    for key in survivors:
        place = moved(block, key)
        first = key if not 0 <= place < KEY_BOUND else before if before is not None and place <= moved(block, before) else None
        if first is not None:
            record = range_of(block.s, key) or range_of(block.s, first)
            raise Spoiled(7, record.record, "shift-breaks", first, key)
        before = key


def check_keys(block, kept):
    """Checks the added and the modified keys against the rows that stay."""
    added = {change.values[0] for change in block.a}
    rules = (
        ("added-taken", block.a, lambda key: key in kept),
        ("modified-absent", block.m, lambda key: key not in kept and key not in added),
        ("modified-added", block.m, lambda key: key in added),
    )
    for rule, changes, is_broken in rules:
        for change in changes:
            if is_broken(change.values[0]):
                raise Spoiled(7, change.record, rule, change.values[0])


def applied(block, rows):
    """The rows after a block, and the pairs of keys that it keeps."""
    check_removed(block, rows)
    survivors = [key for key in rows if not range_of(block.r, key)]
    check_shifts(block, survivors)
    pairs = [(key, moved(block, key)) for key in survivors]
    after = {now: rows[key] for key, now in pairs}
    check_keys(block, after)
    after |= {change.values[0]: change.values[1] for change in block.a + block.m}
    if len(after) > MOST_ROWS:
        raise Spoiled(7, block.record, "too-many-rows", len(after))
    return dict(sorted(after.items())), pairs


def composed(pairs, later):
    """The pairs that lead through both lists."""
    later = dict(later)
    return [(first, later[second]) for first, second in pairs if second in later]


def same(rows):
    """The tick of a table that does not change."""
    return Tick(rows, rows, [(key, key) for key in rows])


class Run:
    """The nodes of a script by name, the opening rows of each source, and the steps of a feed. `states` has each good step, with the tick of each node."""

    def __init__(self, script, opening, steps, limits):
        self.nodes, self.opening, self.steps, self.limits, self.states, self.fault = script.nodes, opening, steps, limits, [], None
        try:
            for step in range(len(steps) + 1):
                self.states.append(self.state(step))
        except Spoiled as spoiled:
            self.fault = spoiled.args

    def sources(self, step):
        """The ticks of the sources, by name."""
        if not step:
            return {name: Tick({}, rows, []) for name, rows in self.opening.items()}
        ticks = {name: same(self.states[step - 1][name].new) for name in self.opening}
        for block in self.steps[step - 1]:
            tick = ticks[block.source]
            rows, pairs = applied(block, tick.new)
            ticks[block.source] = Tick(tick.old, rows, composed(tick.kept, pairs))
        return ticks

    def tick(self, step, node, ticks):
        """The tick of a node that is no source, of those of its inputs, by number."""
        old = self.states[step - 1][node.name].new if step else {}
        new = dict(sorted(node.form.table(*(tick.new for tick in ticks)).items()))
        return Tick(old, new, node.form.kept(ticks, old, new))

    def state(self, step):
        """The tick of each node, by name."""
        ticks, fault = self.sources(step), None
        for node in self.nodes.values():
            if isinstance(node.form, Source) or not all(name in ticks for name in node.form.inputs):
                continue
            try:
                ticks[node.name] = self.tick(step, node, [ticks[name] for name in node.form.inputs])
            except NodeFault as failed:
                fault = fault or Spoiled(8, node.name, *failed.args)
        if fault:
            raise fault
        for name, limit in self.limits.items():
            if (rows := len(ticks[name].new)) > limit:
                raise Spoiled(9, name, rows, limit)
        return ticks
