"""Updates and snapshots as they are printed."""
from expected.records import printed


def ranges(keys):
    """The longest ranges of rising keys."""
    found = []
    for key in keys:
        if found and found[-1][1] == key - 1:
            found[-1][1] = key
        else:
            found.append([key, key])
    return found


def shifts(kept):
    """The ranges of the kept pairs that move: one for each longest stretch of neighbours with one difference."""
    found, last = [], 0
    for old, new in kept:
        if new - old != last:
            found.append([old, old, new - old])
        found[-1:] = [[found[-1][0], old, new - old]] if found else []
        last = new - old
    return [it for it in found if it[2]]


def update_text(step, name, columns, tick):
    """The records of the update between the tables of a tick, or nothing where it is empty."""
    left, came = {old for old, _ in tick.kept}, {new for _, new in tick.kept}
    removed = [key for key in tick.old if key not in left]
    added = [key for key in tick.new if key not in came]
    modified = [(old, new) for old, new in tick.kept if tick.old[old] != tick.new[new]]
    names = [it for place, (it, _) in enumerate(columns) if any(tick.old[old][place] != tick.new[new][place] for old, new in modified)]
    told = [("r", *it) for it in ranges(removed)] + [("s", *it) for it in shifts(tick.kept)] + [("a", key, *tick.new[key]) for key in added]
    told += [("c", *names)] if modified else []
    told += [("m", new, *tick.new[new]) for _, new in modified]
    return b"".join(printed(*fields) for fields in [("step", step, name)] + told) if told else b""


def snapshot_text(caller, call, step, name, rows):
    """The records of a snapshot."""
    return printed("snap", caller, call, step, name) + b"".join(printed("w", key, *cells) for key, cells in rows.items())
