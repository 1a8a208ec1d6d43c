"""The picture of a story: one column a line, one lane for each part, in tiles side by side."""

from html import escape

from lanes import COLUMN, Lanes, Message, middle, put_on_tracks
from reading import OPEN, told

TILE = 16
COLOURS = 8


def short(text, most):
    """A text that fits its place."""
    return text if len(text) <= most else text[: most - 1] + "…"


def text_at(x, y, text, kind, more=""):
    return f'<text x="{x}" y="{y}" class="{kind}"{more}>{escape(text)}</text>'


def pill(column, y, text, kind):
    """A word in a box."""
    box = f'<rect x="{column * COLUMN + 2}" y="{y - 9}" width="{COLUMN - 4}" height="18" rx="6"/>'
    return f'<g class="pill {kind}">{box}{text_at(middle(column), y + 4, short(text, 13), "m")}</g>'


def dot(column, y, kind="", shift=0):
    return f'<circle cx="{middle(column) + shift}" cy="{y}" r="4" class="dot {kind}"/>'


class Picture:
    """The drawing's parts, kept by the tiles that they reach into."""

    def __init__(self, story):
        self.story, self.rows = story, story.rows
        self.tiles = [[] for _ in range(0, max(len(self.rows), 1), TILE)]
        self.ends = next((at for at, row in enumerate(self.rows) if not row.events), len(self.rows))
        self.colours = {iccid: at % COLOURS for at, (iccid, _) in enumerate(story.profiles)}
        self.names = dict(story.profiles)
        self.ups, self.downs = [], []
        self.collect()
        counts = put_on_tracks(self.ups), put_on_tracks(self.downs)
        others = any(m.name is OPEN and (m.deliveries or m in self.downs) for m in self.messages())
        self.lanes = Lanes(story.managers, others, *counts)
        self.draw()

    def messages(self):
        return self.ups + self.downs

    def put(self, part, first, last=None):
        """Keeps a part that reaches from one column to another."""
        last = first if last is None else min(last, len(self.rows) - 1)
        for at in range(first // TILE, last // TILE + 1):
            self.tiles[at].append(part)

    def collect(self):
        """All messages, with the columns where they were sent and came to."""
        for column, row in enumerate(self.rows[: self.ends]):
            event, keyword = row.events[0], row.line.split(" ")[0]
            if event.delivered:
                messages = self.ups if keyword == "up" else self.downs
                messages[event.delivered[0]].deliveries.append(column)
            for at, (place, what, name) in enumerate(event.sent):
                others = [other.sent[at] for other in row.events]
                name = name if all(other[2] == name for other in others) else OPEN
                what = what if all(other[1] == what for other in others) else what.split(" ")[0]
                self.ups.append(Message(place, what, name, column))
                self.ups[-1].order = at
            if event.replied:
                place, what, name = event.replied
                name = name if all(other.replied[2] == name for other in row.events) else OPEN
                self.downs.append(Message(place, what, name, column))

    def draw(self):
        self.draw_power()
        self.draw_bands()
        for message in self.ups:
            self.draw_message(message, True)
        for message in self.downs:
            self.draw_message(message, False)
        for column, row in enumerate(self.rows):
            self.draw_head(column, row)
            if row.events:
                self.draw_line(column, row, row.events[0])
        if self.ends < len(self.rows):
            self.draw_end()
        for column, row in enumerate(self.rows):
            self.draw_link(column, row)

    def draw_head(self, column, row):
        x = middle(column)
        self.put(text_at(x, 13, str(row.number), "m n"), column)
        self.put(text_at(x, 28, short(" ".join(row.line.split(" ")[:2]), 12), "m"), column)
        text = "no text" if row.text is None or not row.events else row.text
        kind = "m" if row.events else "m faint"
        self.put(text_at(x, self.lanes.texts + 15, short(text, 12), kind), column)

    def draw_link(self, column, row):
        """What is shown where the pointer stands on a column; it leads to the line in the list."""
        text = row.text if row.events else "(the trace has no text for this line)"
        title = escape(f"line {row.number}: {row.line[:400]}\n{text[:400]}")
        size = f'width="{COLUMN}" height="{self.lanes.height}"'
        box = f'<rect x="{column * COLUMN}" {size} class="col"/>'
        link = f'<a href="#l{row.number}" id="c{row.number}"><title>{title}</title>{box}</a>'
        self.put(link, column)

    def draw_power(self):
        """The card's power, planned cuts, and the time in the dark."""
        y = self.lanes.power + 20
        for first, last, lit in self.stretches("lit"):
            x, width = first * COLUMN, (last - first + 1) * COLUMN
            kind = "lit" if lit else "dark"
            bar = f'<rect x="{x}" y="{y + 9}" width="{width}" height="5" class="{kind}"/>'
            self.put(bar, first, last)
            if not lit:
                top, height = self.lanes.card, self.lanes.power + 40 - self.lanes.card
                shade = f'<rect x="{x}" y="{top}" width="{width}" height="{height}" class="shade"/>'
                self.put(shade, first, last)
        for first, last, planned in self.stretches("planned"):
            if planned:
                end = min(middle(last + 1), self.ends * COLUMN)
                line = f'<path d="M{middle(first)} {y} H{end}" class="plan"/>'
                self.put(line, first, min(last + 1, self.ends - 1))

    def stretches(self, field):
        """The longest stretches of columns over which a field is one value."""
        found = []
        for column, row in enumerate(self.rows[: self.ends]):
            value = told(row, field)
            if found and found[-1][2] == value:
                found[-1] = (found[-1][0], column, value)
            else:
                found.append((column, column, value))
        return found

    def draw_bands(self):
        """The enabled profile along the card's lane while it is lit, and what the modems show."""
        lit = [told(row, "lit") is True for row in self.rows[: self.ends]]
        for first, last, value in self.stretches("enabled"):
            start = first
            for column in range(first, last + 2):
                if column > last or not lit[column]:
                    if start < column:
                        self.draw_band(start, column - 1, value, self.lanes.card + 36, 18)
                    start = column + 1
        for first, last, value in self.stretches("shown"):
            self.draw_band(first, last, value, self.lanes.modems + 26, 13)

    def draw_band(self, first, last, value, y, height):
        width = (last - first + 1) * COLUMN
        kind = "open" if value is OPEN else "none" if value is None else f"p{self.colours[value]}"
        frame = f'x="{first * COLUMN + 1}" y="{y}" width="{width - 2}" height="{height}"'
        self.put(f'<rect {frame} rx="3" class="band {kind}"/>', first, last)
        label = self.label(value, last == first)
        for at in range(first // TILE, last // TILE + 1):
            x = max(first, at * TILE) * COLUMN + 6
            kind = "label boxed" if value is OPEN else "label plain" if value is None else "label"
            self.tiles[at].append(text_at(x, y + height - 4, label, kind))

    def label(self, value, narrow):
        if value is OPEN:
            return "not told"
        if value is None:
            return "none"
        name = self.names[value]
        return f"…{value[-4:]}" + (f" {short(name, 5 if narrow else 16)}" if name else "")

    def draw_message(self, message, up):
        """A message's way through the network, with an arrow for each delivery."""
        lanes, kind = self.lanes, "up" if up else "down"
        y, first = lanes.track(message, up), message.column
        start = middle(first) + 8 + 3 * message.order
        origin = lanes.assistant + 22 if up else lanes.manager(message.name)
        goal = lanes.manager(message.name) if up else lanes.assistant + 22
        if y is None:
            y = lanes.track(Message(0, "", "", 0), up) or (lanes.ups if up else lanes.downs) + 14
        goes_on = message.deliveries and message.track is not None
        end = middle(message.end()) - 8 if goes_on else start
        path = f"M{start} {origin} V{y} H{end}"
        self.put(f'<path d="{path}" class="way {kind}"/>', first, message.end())
        for column in message.deliveries:
            self.draw_arrow(message, column, y, goal, kind)
        name = f"{message.place} {message.what}"
        self.put(text_at(start + 6, y - 4, short(name, 12), f"tag {kind}"), first, first + 1)
        if not message.deliveries:
            self.put(f'<circle cx="{start}" cy="{y}" r="4" class="stray {kind}"/>', first)

    def draw_arrow(self, message, column, y, goal, kind):
        """A delivery from the message's track; its number stands there again where that is far."""
        x = middle(column) - 8
        tip = goal + 5 if goal < y else goal - 5
        back = tip + 8 if goal < y else tip - 8
        head = f'<path d="M{x} {tip} L{x - 4} {back} H{x + 4} Z" class="head {kind}"/>'
        line = f'<path d="M{x} {y} V{back}" class="way {kind}"/>'
        self.put(line + head, column)
        if message.track is None or column > message.column + 1:
            near = back + 10 if goal < y else back - 4
            self.put(text_at(x - 5, near, str(message.place), f"tag e {kind}"), column)

    def draw_line(self, column, row, event):
        """What a line does in its lanes."""
        words, lanes = row.line.split(" "), self.lanes
        word, text = words[0], row.text
        if word in ("eim", "bind", "order", "skip", "kept") and text != "no such":
            said = {"eim ok": "joins", "eim exists": "is there"}.get(text, text)
            said = "kept" if word == "kept" else said
            self.put(pill(column, lanes.manager(words[1]), said, word), column)
        if word == "up" and event.delivered:
            self.put(dot(column, lanes.manager(event.delivered[2])), column)
        if word in ("poll", "push") or (word == "down" and event.delivered):
            self.put(dot(column, lanes.assistant + 22), column)
        if word == "restart" or text.startswith("strikes"):
            self.put(pill(column, lanes.assistant + 22, text, word), column)
        if words[-1] == "bad" and event.delivered:
            self.put(text_at(middle(column) + 8, lanes.assistant + 38, "bad", "bad"), column)
        if word == "cut":
            self.put(pill(column, lanes.power + 20, row.line, "cut"), column)
        if word == "boot":
            self.put(pill(column, lanes.power + 20, "boot", "boot"), column)
        if word in ("detach", "modems") and text != "no such":
            self.put(pill(column, lanes.modems + 13, text.split(" ")[0], word), column)
        self.draw_card(column, word, text, event)

    def draw_card(self, column, word, text, event):
        """What the card is asked, and what it says."""
        lanes = self.lanes
        if event.commanded and word in ("down", "push", "probe"):
            x, top = middle(column), lanes.assistant + 26
            if word == "probe":
                self.put(pill(column, lanes.assistant + 22, "strikes 3", word), column)
                top = lanes.assistant + 31
            kind = "way ask" if event.lit or text == "lost" else "way ask idle"
            tip = lanes.card + 7
            head = f'<path d="M{x} {tip} L{x - 4} {tip - 7} H{x + 4} Z" class="head ask"/>'
            self.put(f'<path d="M{x} {top} V{tip - 6}" class="{kind}"/>{head}', column)
        if event.commanded or word in ("show", "device"):
            said = {"push": "results", "show": "shown", "device": text}.get(word)
            first = text.split(" ")[0]
            said = text if first in ("off", "lost") else said or " ".join(text.split(" ")[:2])
            kind = first if first in KINDS else "plain"
            self.put(pill(column, lanes.card + 16, said, kind), column)
        if text == "lost":
            x, y = middle(column) + (28 if word == "boot" else 0), lanes.power + 2
            bolt = f"M{x + 3} {y} l-9 13 h6 l-3 11 l10 -15 h-6 Z"
            self.put(f'<path d="{bolt}" class="bolt"/>', column)

    def draw_end(self):
        """The lines that the trace has no text for."""
        x = self.ends * COLUMN
        width = (len(self.rows) - self.ends) * COLUMN
        frame = f'x="{x}" y="0" width="{width}" height="{self.lanes.height}"'
        self.put(f'<rect {frame} class="blank"/>', self.ends, len(self.rows) - 1)
        said = "no text from here on"
        self.put(text_at(x + 6, self.lanes.ups + 10, said, "label boxed"), self.ends, self.ends + 1)

    def lines(self):
        """The lanes' lines, over all columns."""
        end = len(self.rows) * COLUMN
        return [
            f'<path d="M0 {top} H{end}" class="edge"/>' for _, top, _, _ in self.lanes.rows
        ] + [f'<path d="M0 {self.lanes.texts} H{end}" class="edge"/>']

    def svg(self):
        """The tiles, side by side."""
        tiles = []
        for at, parts in enumerate(self.tiles):
            first, last = at * TILE + 1, min((at + 1) * TILE, len(self.rows))
            size = max(last - first + 1, 1) * COLUMN
            size += COLUMN // 2 if last == len(self.rows) else 0
            head = f'<svg class="tile" width="{size}" height="{self.lanes.height}" role="group" '
            head += f'viewBox="{at * TILE * COLUMN} 0 {size} {self.lanes.height}" '
            head += f'aria-label="lines {first} to {last}">'
            left = at * TILE * COLUMN + 2
            rows = self.lanes.rows
            names = [text_at(left, top + 11, name, "lane") for name, top, _, _ in rows]
            tiles.append("\n".join([head, *self.lines(), *names, *parts, "</svg>"]))
        return "\n".join(tiles)

    def names_svg(self):
        """The lanes' names, beside the tiles."""
        rows = [("line", 4, 30, "")] + self.lanes.rows + [("printed", self.lanes.texts, 22, "")]
        names = [
            text_at(6, top + height // 2 + 4, short(name, 13), "name")
            for name, top, height, _ in rows
        ]
        size = f'width="92" height="{self.lanes.height}"'
        return f'<svg class="names" {size} aria-hidden="true">{"".join(names)}</svg>'


KINDS = ("loaded", "refused", "rolled", "lost", "off")
