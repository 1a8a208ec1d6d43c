"""A schedule read beside its trace: for each line, what each run that fits the trace made of it."""

import re
from collections import namedtuple

from world import Unfit, World

# A line; its text, or none where the trace has none; and its events, one for each way that the run
# can have gone.
Row = namedtuple("Row", "number line text events")
Story = namedtuple("Story", "rows stop torn managers profiles")

OPEN = object()
MOST_WAYS = 256

ID = r"[A-Za-z0-9._-]{1,128}"
ADDRESS = r"@[!-\"$-~]{0,128}"
KEY = r"#(?:[0-9A-Fa-f]{2}){0,128}"
ICCID = r"[0-9A-Fa-f]{20}"
NUMBER = r"(?:0|[1-9][0-9]*)"
PICK = rf"(?:{NUMBER}|last)"
ON_PROFILES = rf"(?:list|(?:enable!?|disable|delete):{ICCID})"
ON_EIMS = rf"(?:eims|add:{ID}{ADDRESS}{KEY}|update:{ID}(?:{ADDRESS})?(?:{KEY})?|drop:{ID})"
DEVICE = re.compile(rf"device [0-9A-Fa-f]{{32}}(?: [+-]{ICCID}%(?:[0-9A-Fa-f]{{2}})*){{0,16}}")
LINES = re.compile(
    rf"(?:eim|skip|poll|kept) {ID}|initial {ID} {ADDRESS} {KEY}|bind {ID} {NUMBER} {NUMBER}"
    rf"|order {ID}(?:(?: {ON_PROFILES}){{1,8}}|(?: {ON_EIMS}){{1,8}})"
    rf"|up {PICK}|down {PICK}(?: bad)?"
    rf"|load (?:good|bad) (?:-|(?:[0-9A-Fa-f]{{2}})+)|push|probe (?:ok|fail)|rollback|restart"
    rf"|cut {NUMBER} (?:old|new|half|junk)|boot|show|detach {NUMBER}|modems"
)


class Node:
    """A world that a line led to, and the nodes of the line before that it came from."""

    def __init__(self, event, parents):
        self.event, self.parents = event, parents


def lines_of(octets):
    """The lines of a text."""
    lines = octets.decode("utf-8", "replace").split("\n")
    return lines if lines[-1] else lines[:-1]


def parted(trace):
    """The texts of a trace, its stop line if there is one, and whether its last text is torn."""
    texts = lines_of(trace)
    stop = re.fullmatch(r"stopped ([0-9]+) ([0-9]+)", texts[-1]) if texts else None
    if not stop:
        return texts, None, not trace.endswith(b"\n")
    if int(stop[2]) != len(texts):
        raise Unfit(
            f"the trace ends with '{stop[0]}', but has {len(texts) - 1} texts before it; give the"
            " whole trace, as it was written"
        )
    return texts[:-1], (int(stop[1]), int(stop[2])), False


def words_of(number, line):
    """The words of a line of a schedule."""
    if not (DEVICE if number == 1 else LINES).fullmatch(line):
        raise Unfit(
            f"line {number} of the schedule, '{line[:60]}', isn't one of the grammar, though the"
            " trace has a text for it; docs/SCHEDULE.md has the forms of all lines"
        )
    return line.split(" ")


def begun(line):
    """What the first line says, and the way that begins with it."""
    world = World(words_of(1, line))
    return f"device {len(world.card.profiles)}", [(world, [Node(world.event(), [])])]


def merged(ways):
    """The ways, those that led to the same world as one."""
    if len({world.card for world, _ in ways}) == len(ways):
        return ways
    worlds = {}
    for world, nodes in ways:
        worlds.setdefault(world.key(), (world, []))[1].extend(nodes)
    return list(worlds.values())


def stepped(ways, words, text):
    """What each way says at a line, and the ways that are left by its text."""
    said, left = set(), []
    for world, nodes in ways:
        wanted, after = world.after(words, text)
        said.add(wanted)
        left += [(way, [Node(way.event(), nodes)]) for way in after]
    return said, merged(left)


def unfit(number, line, text, said):
    wanted = " or ".join(f"'{other}'" for other in sorted(said))
    return Unfit(
        f"line {number}: the schedule's '{line[:60]}' says {wanted} here, and the trace"
        f" '{text[:60]}'; give a schedule and the trace of that very schedule"
        " (./iot replay < SCHEDULE > TRACE)"
    )


def followed(lines, texts, torn):
    """The nodes of each line that has a text, and whether the last text is but the front of one."""
    layers, ways = [], []
    for number, (line, text) in enumerate(zip(lines, texts), 1):
        if number == 1:
            wanted, ways = begun(line)
            said, ways = {wanted}, ways if text == wanted else []
        else:
            said, ways = stepped(ways, words_of(number, line), text)
        if not ways and torn and number == len(texts) and any(s.startswith(text) for s in said):
            return layers, True
        if not ways:
            raise unfit(number, line, text, said)
        if len(ways) > MOST_WAYS:
            raise Unfit(
                f"line {number}: the run can have gone more than {MOST_WAYS} ways; put a line"
                " 'show' behind some of the boots, and replay the schedule again"
            )
        layers.append([node for _, nodes in ways for node in nodes])
    return layers, False


def events_of(layers):
    """The events of each line that some way to the trace's end has."""
    events, live = [], layers[-1] if layers else []
    for _ in layers:
        events.append(tuple(dict.fromkeys(node.event for node in live)))
        live = list({id(parent): parent for node in live for parent in node.parents}.values())
    return events[::-1]


def told(row, field):
    """What the trace tells of a line: one value, or OPEN where it leaves several."""
    values = {getattr(event, field) for event in row.events}
    return values.pop() if len(values) == 1 else OPEN


def nickname(digits):
    """A nickname, with a mark in place of what can't be printed."""
    text = bytes.fromhex(digits).decode("utf-8", "replace")
    return "".join(letter if letter.isprintable() else "�" for letter in text)


def read(schedule, trace):
    """The story that a schedule and its trace tell."""
    lines = lines_of(schedule)
    texts, stop, unended = parted(trace)
    if len(texts) > len(lines):
        raise Unfit(
            f"the trace has {len(texts)} texts, and the schedule {len(lines)} lines; give a"
            " schedule and the trace of that very schedule"
        )
    layers, torn = followed(lines, texts, unended)
    events = events_of(layers)
    rows = [
        Row(number, line, texts[number - 1], events[number - 1])
        if number <= len(events)
        else Row(number, line, None, ())
        for number, line in enumerate(lines, 1)
    ]
    managers = [r.line.split(" ")[1] for r in rows if r.text == "eim ok"]
    words = lines[0].split(" ")[2:] if events else []
    profiles = [(word[1:21].lower(), nickname(word.partition("%")[2])) for word in words]
    return Story(rows, stop, torn, managers, profiles)
