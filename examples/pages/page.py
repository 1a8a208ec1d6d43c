"""The page around a picture: a summary, a legend, and the list of all lines."""

import os
from html import escape

from picture import Picture
from reading import OPEN, told

PART = 100
MOST_LINKS = 12
STOPS = {
    2: "reading the schedule failed",
    4: "the chip failed while the first line made the card",
    5: "the line isn't in the grammar, or the first one is missing",
    7: "the line is too long or one too many, or its message would pass the limit of all messages",
}
PATTERNS = (
    '<svg width="0" height="0" style="position:absolute" aria-hidden="true"><defs>'
    '<pattern id="hatch" width="7" height="7" patternUnits="userSpaceOnUse" '
    'patternTransform="rotate(45)"><path d="M0 0 V7" class="line" stroke-width="3"/></pattern>'
    '<pattern id="gap" width="12" height="12" patternUnits="userSpaceOnUse" '
    'patternTransform="rotate(-45)"><path d="M0 0 V12" class="gap" stroke-opacity=".4"/></pattern>'
    "</defs></svg>"
)
SIGNS = [
    ('<path d="M4 9 H30" class="way up"/><path d="M30 5 L38 9 L30 13 Z" class="head up"/>',
     "a message to a manager; its number, and what it is, stand where it was sent"),
    ('<path d="M4 9 H30" class="way down"/><path d="M30 5 L38 9 L30 13 Z" class="head down"/>',
     "a message to the assistant"),
    ('<path d="M4 9 H16" class="way up"/><circle cx="20" cy="9" r="4" class="stray up"/>',
     "a message that is never delivered"),
    ('<text x="8" y="13" class="bad">bad</text>',
     "the verdict on the message's signature is bad"),
    ('<path d="M20 1 V12" class="way ask"/><path d="M20 17 L16 10 H24 Z" class="head ask"/>',
     "the assistant gives the card a command"),
    ('<g class="pill loaded"><rect x="2" y="2" width="38" height="14" rx="6"/></g>',
     "a package is loaded"),
    ('<g class="pill refused"><rect x="2" y="2" width="38" height="14" rx="6"/></g>',
     "a package is refused"),
    ('<g class="pill rolled"><rect x="2" y="2" width="38" height="14" rx="6"/></g>',
     "a rollback"),
    ('<g class="pill lost"><rect x="2" y="2" width="38" height="14" rx="6"/></g>'
     '<path d="M20 0 L11 11 H18 L15 18 L26 7 H20 Z" class="bolt"/>',
     "the step or the boot is lost, and the card is dark"),
    ('<path d="M2 9 H40" class="plan"/>', "a cut is planned"),
    ('<rect x="2" y="7" width="38" height="5" class="lit"/>', "the card has power"),
    ('<rect x="2" y="7" width="38" height="5" class="dark"/>', "the card is dark"),
    ('<rect x="2" y="3" width="38" height="12" rx="3" class="band none"/>',
     "no profile is enabled"),
    ('<rect x="2" y="3" width="38" height="12" rx="3" class="band open"/>',
     "the trace doesn't tell which profile is enabled"),
]


def sign(drawing):
    """A sign of the legend."""
    return f'<svg width="42" height="18" aria-hidden="true">{drawing}</svg>'


def legend(story, picture):
    """What the signs and colours of the picture mean."""
    band = '<rect x="2" y="3" width="38" height="12" rx="3" class="band p{}"/>'
    entries = [
        (band.format(picture.colours[iccid]), f"<code>{iccid}</code> {escape(name)}")
        for iccid, name in story.profiles
    ] + SIGNS
    items = "\n".join(f"<li>{sign(drawing)}<span>{says}</span></li>" for drawing, says in entries)
    return f'<h2 id="key">Legend</h2>\n<ul class="key">\n{items}\n</ul>'


def counted(count, what):
    return f"{count} {what}" if count == 1 else f"{count} {what}s"


def places(rows, word):
    """How many texts begin with a word, and where the first of them stand."""
    numbers = [row.number for row in rows if row.text.split(" ")[0] == word]
    links = [f'<a href="#c{number}">{number}</a>' for number in numbers[:MOST_LINKS]]
    more = ", …" if len(numbers) > MOST_LINKS else ""
    where = f" (at {', '.join(links)}{more})" if links else ""
    return f"<b>{word}</b> {len(numbers)}{where}."


def summary(story):
    """What became of the schedule, in a few sentences."""
    rows = [row for row in story.rows if row.events]
    said = [f"{counted(len(story.rows), 'line')}, of which {len(rows)} have a text in the trace."]
    said += [places(rows, word) for word in ("loaded", "refused", "rolled", "lost", "removed")]
    if story.stop:
        status, number = story.stop
        why = STOPS.get(status, "the replay stopped")
        said.append(f"The replay stopped at line {number} with status {status}: {why}.")
    if story.torn:
        said.append(f"The trace ends inside the text of line {len(rows) + 1}.")
    if len(rows) < len(story.rows):
        said.append(f"From line {len(rows) + 1} on the schedule has lines without a text.")
    unclear = sum(told(row, "enabled") is OPEN for row in rows)
    if unclear:
        said.append(
            f"After {counted(unclear, 'line')} the trace leaves open which profile is enabled: a"
            " boot found the unit of a lost step done, or didn't, and no later text tells which."
        )
    return "<p>" + " ".join(said) + "</p>"


def note(row, picture):
    """What the arrows of a line say, in words."""
    if not row.events:
        return "the trace has no text for this line"
    event, said = row.events[0], []
    if event.delivered:
        up = row.line.startswith("up")
        message = (picture.ups if up else picture.downs)[event.delivered[0]]
        sent = picture.rows[message.column].number
        name = "a manager that isn't told" if message.name is OPEN else message.name
        way = "to" if up else "from"
        said.append(f"{message.what} {way} {name}, sent in line {sent}")
    if len(row.events) > 1:
        said.append("the trace leaves open what was in progress as the power failed")
    return "; ".join(said)


def listed(story, picture):
    """All lines with their texts."""
    parts = []
    for at in range(0, len(story.rows), PART):
        rows = []
        for row in story.rows[at : at + PART]:
            number = f'<a href="#c{row.number}">{row.number}</a>'
            text = f"<code>{escape(row.text)}</code>" if row.events else "<i>no text</i>"
            cells = [number, f"<code>{escape(row.line)}</code>", text, escape(note(row, picture))]
            rows.append(f'<tr id="l{row.number}"><td>{"</td><td>".join(cells)}</td></tr>')
        head = "<tr><th>Line</th><th>Schedule</th><th>Printed</th><th>Message</th></tr>"
        body = "\n".join(rows)
        table = f"<table>\n<thead>{head}</thead>\n<tbody>\n{body}\n</tbody></table>"
        parts.append(f'<div class="part">{table}</div>')
    return '<h2 id="lines">All lines</h2>\n' + "\n".join(parts)


def page(name, story):
    """The whole page, in itself: it needs no other file, no network and no script."""
    with open(os.path.join(os.path.dirname(__file__), "page.css"), encoding="utf-8") as file:
        style = file.read()
    picture = Picture(story)
    title = f"The trace of {escape(name)}"
    return f"""<!DOCTYPE html>
<html lang="en">
<head>
<meta charset="utf-8">
<meta name="viewport" content="width=device-width, initial-scale=1">
<title>{title}</title>
<style>
{style}</style>
</head>
<body>
<h1>{title}</h1>
{summary(story)}
<p>A column is a line of the schedule, and a row a part of the world. The picture scrolls sideways.
A column leads to its line in the list below, and the line's number there back to its column.</p>
{PATTERNS}
<div class="picture">
{picture.names_svg()}
<div class="scroll" tabindex="0" role="region" aria-label="the picture of the trace">
<div class="tiles">
{picture.svg()}
</div>
</div>
</div>
{legend(story, picture)}
{listed(story, picture)}
</body>
</html>
"""
