"""Reads the records of docs/FORMATS.md, each exactly as its grammar has it, and tells them as text.

The text of a record has all that its octets say, and a record has one spelling: so records with the
same text have the same octets.
"""
import json
import re

GREATEST_COUNTER = 2**63 - 1
GREATEST_NUMBER = 2**32 - 1

REFUSALS = {
    1: "malformed",
    2: "unknown eIM",
    3: "bad verdict",
    4: "wrong EID",
    5: "wrong association",
    6: "replay",
    7: "no room",
    8: "too long",
}
INITIAL_REFUSALS = {1: "an eIM is there", 2: "the associations are used up"}
EIM_REFUSALS = {
    1: "not bound",
    2: "the counter is the greatest",
    3: "an order has a greater counter",
    4: "no order waits",
}
PROFILE_CODES = {0: "", 1: "no such profile", 2: "in the wrong state"}
DELETE_CODES = {**PROFILE_CODES, 3: "a rollback may give it back"}
ADD_CODES = {0: "", 1: "the eIM is there", 2: "eight are there", 3: "the associations are used up"}
UPDATE_CODES = {0: "", 1: "no such eIM"}
DROP_CODES = {0: "", 1: "no such eIM", 2: "done, and no eIM is left"}
INPUT_ENDS = "the input ends inside a frame"
STOPS = {
    2: "reading failed",
    4: "the file failed",
    5: INPUT_ENDS,
    7: "a frame has more than 262,144 octets, or is the 100,001st",
    8: "the file holds no card, and the first frame makes none",
}
PART_STOPS = {**STOPS, 5: f"{INPUT_ENDS}, or the frame isn't in the grammar"}


class Foreign(Exception):
    """Octets that are no record of the kind that is read, and why."""


# Elements.


def length_of(octets):
    """The length that stands behind the tag, and what follows it."""
    first, rest = octets[1], octets[2:]
    if first < 0x80:
        return first, rest
    count = first - 0x80
    if not 1 <= count <= 3:
        raise Foreign(f"{first:02x} begins no length")
    if len(rest) < count:
        raise Foreign("the octets end inside a length")
    length = int.from_bytes(rest[:count], "big")
    if length < (0x80 if count == 1 else 1 << 8 * (count - 1)):
        raise Foreign(f"the length {length} is written with too many octets")
    return length, rest[count:]


def element(octets):
    """The tag and the content of the first element, and what follows it."""
    if octets and octets[0] & 0x1F == 0x1F:
        raise Foreign(f"{octets[0]:02x} is no tag")
    if len(octets) < 2:
        raise Foreign("the octets end inside an element")
    length, rest = length_of(octets)
    if len(rest) < length:
        wanted = f"{octets[0]:02x} has the length {length}"
        raise Foreign(f"{wanted}, and {len(rest)} octets follow")
    return octets[0], rest[:length], rest[length:]


def elements(octets):
    found = []
    while octets:
        tag, content, octets = element(octets)
        found.append((tag, content))
    return found


def fields(content, *wanted):
    """The values of fields in their order, each a tag and its reader.

    A third word marks a field that may be missing, which is None then."""
    found, rest = [], elements(content)
    for tag, read, *optional in wanted:
        if rest and rest[0][0] == tag:
            found.append(read(rest.pop(0)[1]))
        elif optional:
            found.append(None)
        else:
            there = f"{rest[0][0]:02x} stands" if rest else "nothing follows"
            raise Foreign(f"where {tag:02x} has to stand {there}")
    if rest:
        raise Foreign(f"{rest[0][0]:02x} follows the last field")
    return found


def told(tag, content, kinds):
    """The text of an element by the kinds that its tag may say, each a name and a reader."""
    if tag not in kinds:
        raise Foreign(f"the tag {tag:02x} begins no such record")
    name, read = kinds[tag]
    try:
        return f"{name}{read(content)}"
    except Foreign as error:
        plain = name.strip(" :=")
        raise Foreign(f"{plain}: {error}" if plain else str(error)) from None


def only(kinds):
    """A reader of octets that are one record of these kinds."""

    def read(octets):
        tag, content, rest = element(octets)
        if rest:
            raise Foreign(f"{len(rest)} octets follow the record")
        return told(tag, content, kinds)

    return read


def many(kinds, least, most):
    """A reader of so many records of these kinds, one behind the other."""

    def read(octets):
        found = [told(tag, content, kinds) for tag, content in elements(octets)]
        if not least <= len(found) <= most:
            raise Foreign(f"{len(found)} records stand where {least} to {most} may")
        return found

    return read


# Values.


def number(least, most):
    def read(content):
        if not content or content[0] >= 0x80 or len(content) > 9:
            raise Foreign(f"`{content.hex()}` is no integer")
        if len(content) > 1 and content[0] == 0 and content[1] < 0x80:
            raise Foreign(f"`{content.hex()}` isn't the shortest spelling of an integer")
        value = int.from_bytes(content, "big")
        if not least <= value <= most:
            raise Foreign(f"{value} isn't from {least} to {most}")
        return value

    return read


def code_of(codes):
    return number(min(codes), max(codes))


def exact(count, what):
    def read(content):
        if len(content) != count:
            raise Foreign(f"{what} has {count} octets, and not {len(content)}")
        return content.hex()

    return read


def text(pattern, most, what):
    def read(content):
        if len(content) > most or not re.fullmatch(pattern, content):
            raise Foreign(f"`{content.hex()}` is no {what}")
        return content.decode()

    return read


def some_octets(most, what):
    def read(content):
        if len(content) > most:
            raise Foreign(f"{what} has at most {most} octets, and not {len(content)}")
        return content.hex()

    return read


def nickname(content):
    if len(content) > 64:
        raise Foreign(f"a nickname has at most 64 octets, and not {len(content)}")
    try:
        return json.dumps(content.decode(), ensure_ascii=False)
    except UnicodeDecodeError:
        raise Foreign("a nickname is text in UTF-8") from None


def empty(content):
    if content:
        raise Foreign(f"nothing stands in it, and not `{content.hex()}`")
    return ""


flag = number(0, 1)
sequence = association = number(1, GREATEST_NUMBER)
counter = number(1, GREATEST_COUNTER)
kept_counter = number(0, GREATEST_COUNTER)
eim_id = text(rb"[A-Za-z0-9._-]+", 128, "identifier")
address = text(rb'[!"$-~]*', 128, "address")
key = some_octets(128, "a key")
eid = exact(16, "an EID")
iccid = exact(10, "an ICCID")


# Lists.


def are_distinct(values, what):
    if len(set(values)) < len(values):
        raise Foreign(f"two {what} are the same")


def list_of(read, most):
    """The entries of a list, each an element 30 of such fields."""

    def entries(content):
        found = elements(content)
        if len(found) > most or any(tag != 0x30 for tag, _ in found):
            raise Foreign(f"a list has at most {most} elements of tag 30, and no others")
        return [fields(inside, *read) for _, inside in found]

    return entries


def profiles(content):
    read = list_of(((0x80, iccid), (0x81, flag), (0x82, nickname)), 16)(content)
    are_distinct([entry[0] for entry in read], "ICCIDs")
    if sum(entry[1] for entry in read) > 1:
        raise Foreign("two profiles are enabled")
    return [f"{'-+'[enabled]}{name}{nick}" for name, enabled, nick in read]


def eim_lines(content):
    line = ((0x80, eim_id), (0x81, address), (0x82, association), (0x83, kept_counter))
    read = list_of(line, 8)(content)
    are_distinct([entry[0] for entry in read], "identifiers")
    are_distinct([entry[2] for entry in read], "associations")
    return [f"{name}/{of}/{last}@{at}" for name, at, of, last in read]


def in_brackets(entries):
    return f"[{' '.join(entries)}]"


# Packages and results.


def profile_operation(content):
    return fields(content, (0x80, iccid))[0]


def enable(content):
    name, has_flag = fields(content, (0x80, iccid), (0x81, empty, "optional"))
    return f"{':' if has_flag is None else '!:'}{name}"


def eim_fields(name, at, of_key):
    spelled_at = "" if at is None else f"@{at}"
    return f"{name}{spelled_at}{'' if of_key is None else f'#{of_key}'}"


def add(content):
    return eim_fields(*fields(content, (0x80, eim_id), (0x81, address), (0x82, key)))


def update(content):
    changed = (0x81, address, "optional"), (0x82, key, "optional")
    return eim_fields(*fields(content, (0x80, eim_id), *changed))


def named_eim(content):
    return fields(content, (0x80, eim_id))[0]


ON_PROFILES = {
    0xA0: ("enable", enable),
    0xA1: ("disable:", profile_operation),
    0xA2: ("delete:", profile_operation),
    0x83: ("list", empty),
}
ON_EIMS = {
    0xA8: ("add:", add),
    0xA9: ("update:", update),
    0xAA: ("drop:", named_eim),
    0x8B: ("eims", empty),
}


def joined(read):
    return lambda content: " ".join(read(content))


BODIES = {0xA4: ("", joined(many(ON_PROFILES, 1, 8))), 0xA5: ("", joined(many(ON_EIMS, 1, 8)))}


def signed_part(content):
    """What is signed of a package; the last field is its body, of one of two kinds."""
    kind = elements(content)[-1:]
    body = kind[0][0] if kind and kind[0][0] in BODIES else 0xA4
    head = (0x80, eim_id), (0x81, eid), (0x82, association), (0x83, counter)
    name, card, of, count, operations = fields(content, *head, (body, BODIES[body][1]))
    return f"{name}/{of}/{count} for {card}: {operations}"


def package(content):
    of_signature = (0x86, some_octets(128, "a signature"))
    signed, signature = fields(content, (0x30, signed_part), of_signature)
    return f"{signed}{f' signature {signature}' if signature else ''}"


def any_package(octets):
    """What a load or a message carries: a package, or octets that are none."""
    try:
        return only({0x30: ("", package)})(octets)
    except Foreign as error:
        return f"{octets.hex() or 'no octets'} (no package: {error})"


def item(codes):
    def read(content):
        (code,) = fields(content, (0x80, code_of(codes)))
        return f"{code}{f' ({codes[code]})' if codes[code] else ''}"

    return read


def added(content):
    code, of = fields(content, (0x80, code_of(ADD_CODES)), (0x81, association, "optional"))
    if (code == 0) != (of is not None):
        raise Foreign("an association is there exactly where the code is 0")
    return f"{code} ({ADD_CODES[code]})" if code else f"0:{of}"


ITEMS = {
    0xA0: ("enable=", item(PROFILE_CODES)),
    0xA1: ("disable=", item(PROFILE_CODES)),
    0xA2: ("delete=", item(DELETE_CODES)),
    0xA3: ("profiles=", lambda content: in_brackets(profiles(content))),
    0xA8: ("add=", added),
    0xA9: ("update=", item(UPDATE_CODES)),
    0xAA: ("drop=", item(DROP_CODES)),
    0xAB: ("eims=", lambda content: in_brackets(eim_lines(content))),
}


def numbered_result(content):
    """The number and the text of what stands in a result."""
    mark = (0x85, empty, "optional")
    read = (0x80, sequence), (0x81, eim_id), (0x82, association), (0x83, counter)
    seq, name, of, count, items, rolled = fields(
        content, *read, (0xA4, many(ITEMS, 1, 8)), mark
    )
    marked = "" if rolled is None else " rolled back"
    return seq, f"{seq} {name}/{of}/{count} {' '.join(items)}{marked}"


def result(content):
    return numbered_result(fields(content, (0x30, bytes))[0])[1]


# Records on ES10b.


def refusal(content):
    of_code = (0x80, code_of(REFUSALS))
    code, kept, received = fields(content, of_code, (0x81, kept_counter), (0x82, kept_counter))
    if code != 6 and (kept or received):
        raise Foreign("counters stand beside a code that isn't 6")
    counters = f", kept {kept}, received {received}" if code == 6 else ""
    return f"{code} {REFUSALS[code]}{counters}"


def refused(codes):
    def read(content):
        (code,) = fields(content, (0x80, code_of(codes)))
        return f"{code} {codes[code]}"

    return read


def numbered(read):
    return lambda content: fields(content, (0x80, read))[0]


def pending(content):
    found = elements(content)
    if len(found) > 8 or any(tag != 0x30 for tag, _ in found):
        raise Foreign("results are at most 8 elements of tag 30, and no others")
    read = [numbered_result(inside) for _, inside in found]
    numbers = [seq for seq, _ in read]
    if any(after <= before for before, after in zip(numbers, numbers[1:])):
        raise Foreign("the numbers of the results don't rise")
    return "; ".join(line for _, line in read) or "none"


def stopped(reasons):
    def read(content):
        status, at = fields(content, (0x80, code_of(reasons)), (0x81, number(0, 100_001)))
        if status not in reasons:
            raise Foreign(f"no run stops with {status}")
        return f"{status} at frame {at}: {reasons[status]}"

    return read


def personalise(content):
    card, entries = fields(content, (0x80, eid), (0xA1, profiles))
    return " ".join([card, *entries])


def load(content):
    verdict, carried = fields(content, (0x80, flag), (0x81, any_package))
    return f"{('bad', 'good')[verdict]} {carried}"


def initial(content):
    name, at, of_key = fields(content, (0x80, eim_id), (0x81, address), (0x82, key))
    return f"{name} @{at} #{of_key}"


COMMANDS = {
    0xA0: ("personalise ", personalise),
    0xA1: ("load ", load),
    0x82: ("rollback", empty),
    0xA3: ("remove ", numbered(sequence)),
    0x84: ("results", empty),
    0x85: ("eims", empty),
    0xA6: ("initial ", initial),
}
ANSWERS = {
    0x80: ("personalised", empty),
    0xA1: ("loaded ", result),
    0xA2: ("load refused ", refusal),
    0xA3: ("rolled back ", numbered(sequence)),
    0x84: ("not permitted", empty),
    0x85: ("removed", empty),
    0x86: ("absent", empty),
    0xA7: ("results: ", pending),
    0xA8: ("eims: ", lambda content: " ".join(eim_lines(content)) or "none"),
    0xA9: ("associated ", numbered(association)),
    0xAA: ("initial refused ", refused(INITIAL_REFUSALS)),
    0x8B: ("malformed", empty),
    0x8C: ("already personal", empty),
}

# Messages on ESipa.

TO_EIM = {
    0xA0: ("poll ", numbered(eid)),
    0xA1: ("result ", result),
    0xA2: ("refused ", refusal),
}
TO_ASSISTANT = {
    0x80: ("package ", any_package),
    0x81: ("nothing", empty),
    0xA2: ("ack ", numbered(sequence)),
}

# What comes to a manager or an assistant alone, and what they give.


def bind(content):
    of, last = fields(content, (0x80, association), (0x81, kept_counter))
    return f"{of} last {last}"


def message(content):
    name, verdict, inside = fields(
        content, (0x80, eim_id), (0x81, flag), (0xA2, only(TO_ASSISTANT))
    )
    return f"{name} {('bad', 'good')[verdict]} {inside}"


def to_manager(content):
    return ": ".join(fields(content, (0x80, eim_id), (0xA2, only(TO_EIM))))


DEEDS = {0xA0: ("card: ", only(COMMANDS)), 0xA1: ("", to_manager)}


def deeds(content):
    return "; ".join(many(DEEDS, 0, len(content))(content)) or "nothing"


TO_EIM_ALONE = {
    0xA0: ("bind ", bind),
    0xA4: ("order ", BODIES[0xA4][1]),
    0xA5: ("order ", BODIES[0xA5][1]),
    0x86: ("skip", empty),
    0xA7: ("message ", only(TO_EIM)),
}
OF_EIM_ALONE = {
    0x80: ("ordered ", counter),
    0xA1: ("refused ", refused(EIM_REFUSALS)),
    0x82: ("bound", empty),
    0x83: ("skipped ", counter),
    0xA4: ("reply ", only(TO_ASSISTANT)),
    0x85: ("silent", empty),
}
TO_IPA_ALONE = {
    0xA0: ("message ", message),
    0x81: ("probe ", lambda content: ("failed", "passed")[flag(content)]),
    0x82: ("restart", empty),
    0x83: ("push", empty),
    0xA4: ("answer ", only(ANSWERS)),
    0x85: ("poll ", eim_id),
}

# The records of a form of words, by what comes in and what goes out.
FRAMES = {
    ("card", "in"): COMMANDS,
    ("card", "out"): {**ANSWERS, 0xAD: ("stopped ", stopped(STOPS))},
    ("eim", "in"): TO_EIM_ALONE,
    ("eim", "out"): {**OF_EIM_ALONE, 0xAD: ("stopped ", stopped(PART_STOPS))},
    ("ipa", "in"): TO_IPA_ALONE,
    ("ipa", "out"): {0x30: ("", deeds), 0xAD: ("stopped ", stopped(PART_STOPS))},
}
