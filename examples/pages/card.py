"""The card of the small world as a value: what a command makes of it, and what it answers.

The rules are those of docs/CARD.md."""

from collections import namedtuple
from functools import partial

GREATEST = 4_294_967_295

Profile = namedtuple("Profile", "iccid on")
Entry = namedtuple("Entry", "id association counter")
Result = namedtuple("Result", "seq id association counter rolled")
Package = namedtuple("Package", "id eid association counter operations")
Card = namedtuple("Card", "eid profiles entries next_association pending next_seq armed")


def fresh(eid, profiles):
    """A card directly after its personalisation."""
    return Card(eid, profiles, (), 1, (), 1, None)


def enabled(card):
    """The ICCID of the enabled profile, or none."""
    return next((profile.iccid for profile in card.profiles if profile.on), None)


def switched(profiles, iccid):
    """The profiles with this one alone enabled, or none of them."""
    return tuple(Profile(profile.iccid, profile.iccid == iccid) for profile in profiles)


def on_profiles(former, state, operation):
    """One operation on profiles: whether it is done, its item, and what it leaves."""
    name, _, iccid = operation.partition(":")
    profiles, armed = state
    if name == "list":
        return True, f"profiles={len(profiles)}", state
    kind = name.rstrip("!")
    found = next((profile for profile in profiles if profile.iccid == iccid), None)
    if not found:
        return False, f"{kind}=1", state
    if found.on != (kind == "disable"):
        return False, f"{kind}=2", state
    if kind == "delete":
        if armed and iccid == former:
            return False, "delete=3", state
        return True, "delete=0", (tuple(p for p in profiles if p.iccid != iccid), armed)
    if kind == "disable":
        return True, "disable=0", (switched(profiles, None), armed)
    arms = name == "enable!" and iccid != former and any(p.iccid == former for p in profiles)
    return True, "enable=0", (switched(profiles, iccid), armed or arms)


def on_entries(state, operation):
    """One operation on eIMs: whether it is done, its item, and what it leaves."""
    name, _, words = operation.partition(":")
    entries, following = state
    if name == "eims":
        return True, f"eims={len(entries)}", state
    named = words.partition("@")[0].partition("#")[0]
    there = any(entry.id == named for entry in entries)
    if name == "add":
        code = 1 if there else 2 if len(entries) == 8 else 3 if following == GREATEST else 0
        if code:
            return False, f"add={code}", state
        added = entries + (Entry(named, following, 0),)
        return True, f"add=0:{following}", (added, following + 1)
    if not there:
        return False, f"{name}=1", state
    if name == "update":
        return True, "update=0", state
    left = tuple(entry for entry in entries if entry.id != named)
    return True, f"drop={0 if left else 2}", (left, following)


def executed(state, operations, one):
    """The items of the operations up to the first that isn't done, and what they make."""
    items = []
    for operation in operations:
        done, item, state = one(state, operation)
        items.append(item)
        if not done:
            break
    return items, state


def refusal(card, package, good):
    """The refusal of a package, or none."""
    entry = next((entry for entry in card.entries if entry.id == package.id), None)
    if not entry:
        return "refused 2"
    if not good:
        return "refused 3"
    if package.eid != card.eid:
        return "refused 4"
    if package.association != entry.association:
        return "refused 5"
    if package.counter <= entry.counter:
        return f"refused 6 kept {entry.counter} received {package.counter}"
    if len(card.pending) == 8 or card.next_seq > GREATEST - 2:
        return "refused 7"
    return None


def loaded(card, package, good):
    """A package: what the card says, and the card after it, or none where it is refused."""
    refused = refusal(card, package, good)
    if refused:
        return refused, None
    entries = tuple(
        entry._replace(counter=package.counter) if entry.id == package.id else entry
        for entry in card.entries
    )
    former, seq = enabled(card), card.next_seq
    result = Result(seq, package.id, package.association, package.counter, False)
    after = card._replace(
        entries=entries, pending=card.pending + (result,), next_seq=seq + 1, armed=None
    )
    if package.operations[0].partition(":")[0] in ("add", "update", "drop", "eims"):
        state = (entries, card.next_association)
        items, state = executed(state, package.operations, on_entries)
        after = after._replace(entries=state[0], next_association=state[1])
    else:
        state = (card.profiles, False)
        items, state = executed(state, package.operations, partial(on_profiles, former))
        after = after._replace(profiles=state[0], armed=(former, seq) if state[1] else None)
    return " ".join([f"loaded {seq}", *items]), after


def rolled_back(card):
    """A rollback."""
    if not card.armed:
        return "not permitted", None
    former, seq = card.armed
    marked = next(result for result in card.pending if result.seq == seq)
    others = tuple(result for result in card.pending if result.seq != seq)
    after = card._replace(
        profiles=switched(card.profiles, former),
        pending=others + (marked._replace(seq=card.next_seq, rolled=True),),
        next_seq=card.next_seq + 1,
        armed=None,
    )
    return f"rolled {card.next_seq}", after


def removed(card, seq):
    """The removal of a pending result."""
    left = tuple(result for result in card.pending if result.seq != seq)
    if left == card.pending:
        return f"absent {seq}", None
    ends = card.armed and card.armed[1] == seq
    return f"removed {seq}", card._replace(pending=left, armed=None if ends else card.armed)


def associated(card, name):
    """The card's first eIM."""
    if card.entries:
        return "initial refused 1", None
    if card.next_association == GREATEST:
        return "initial refused 2", None
    number = card.next_association
    after = card._replace(entries=(Entry(name, number, 0),), next_association=number + 1)
    return f"associated {number}", after


def shown(card):
    """The text of the line `show`."""
    words = ["profiles"]
    words += [("+" if profile.on else "-") + profile.iccid for profile in card.profiles]
    words += ["eims"] + [f"{e.id}/{e.association}/{e.counter}" for e in card.entries]
    words += ["pending"]
    for result in card.pending:
        mark = "r" if result.rolled else ""
        words.append(f"{result.seq}/{result.id}/{result.association}/{result.counter}{mark}")
    return " ".join(words)
