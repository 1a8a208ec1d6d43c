"""The runs of the small world that fit a trace (docs/WORLD.md).

A trace leaves one thing open: whether a boot found the unit of a lost step done. Each way that a
run can have gone is followed until a later text rules it out; what is left is what is told."""

import copy
from collections import namedtuple
from functools import partial

import card as cards
from octets import package_of

# What one line made of the world. A message is (index, what it is, manager); `to_eims` tells which
# of the two lists it stands in.
Event = namedtuple("Event", "lit enabled shown planned commanded delivered replied sent")


class Unfit(Exception):
    """A line outside of the grammar, or a text that the line can't print."""


class Manager:
    """A manager: its binding, its orders, and the results that it received."""

    def __init__(self):
        self.bound, self.orders, self.received = None, [], []
        self.known = set()
        self.first = 0

    def copy(self):
        other = copy.copy(self)
        other.orders, other.received = list(self.orders), list(self.received)
        other.known = set(self.known)
        return other

    def waiting(self):
        """The place of the first order that waits, or none."""
        while self.first < len(self.orders):
            association, counter, _, skipped = self.orders[self.first]
            if not skipped and (association, counter) not in self.known:
                return self.first
            self.first += 1
        return None

    def bind(self, association, last):
        used = max((order[1] for order in self.orders if order[0] == association), default=0)
        if last < used:
            return f"bind low {used}"
        self.bound = (association, last)
        return "bound"

    def order(self, operations):
        if not self.bound:
            return "unbound"
        association, last = self.bound
        if last == 2**63 - 1:
            return "counter spent"
        self.bound = (association, last + 1)
        self.orders.append((association, last + 1, operations, False))
        return f"ordered {last + 1}"

    def skip(self):
        place = self.waiting()
        if place is None:
            return "none waiting"
        self.orders[place] = self.orders[place][:3] + (True,)
        return f"skipped {self.orders[place][1]}"

    def hear(self, result):
        self.received.append(result)
        self.known.add((result.association, result.counter))

    def kept(self):
        records = {}
        for result in self.received:
            key = (result.association, result.counter)
            if key not in records or result.seq > records[key].seq:
                records[key] = result
        words = ["kept"]
        for result in records.values():
            mark = "r" if result.rolled else ""
            words.append(f"{result.association}/{result.counter}/{result.seq}{mark}")
        return " ".join(words)


class World:
    """One way that the run can have gone so far."""

    def __init__(self, words):
        profiles = []
        for word in words[2:]:
            iccid = word[1:].partition("%")[0].lower()
            profiles.append(cards.Profile(iccid, word[0] == "+"))
        self.card = cards.fresh(words[1].lower(), tuple(profiles))
        self.attempt, self.lit, self.plan = None, True, False
        self.managers, self.to_eims, self.to_ipa = {}, [], []
        self.failures = 0
        self.shown = cards.enabled(self.card)
        self.refreshes, self.modems = 0, None
        self.losing, self.said = False, None
        self.clear()

    def copy(self):
        other = copy.copy(self)
        other.managers = {name: manager.copy() for name, manager in self.managers.items()}
        other.to_eims, other.to_ipa = list(self.to_eims), list(self.to_ipa)
        return other

    def key(self):
        """What tells two worlds apart: the card first, since it mostly does."""
        managers = tuple(
            (name, m.bound, tuple(m.orders), tuple(m.received)) for name, m in self.managers.items()
        )
        messages = (tuple(self.to_eims), tuple(self.to_ipa))
        modems = (self.shown, self.refreshes, self.modems)
        return (self.card, self.attempt, self.lit, self.failures % 3, modems, managers, messages)

    def clear(self):
        self.commanded, self.delivered, self.replied, self.sent = "", None, None, ()

    def event(self):
        enabled = cards.enabled(self.card)
        parts = (self.commanded, self.delivered, self.replied, self.sent)
        return Event(self.lit, enabled, self.shown, self.plan, *parts)

    def after(self, words, said):
        """The worlds after a line that are left by what was said, and what it says else."""
        self.clear()
        self.losing, self.said = said == "lost", said
        forks = []
        if words[0] == "boot" and said == "booted" and not self.lit and self.attempt:
            forks.append(self.copy())
            forks[0].card = self.attempt
        text = getattr(self, "on_" + words[0])(*words[1:])
        if text != said:
            return text, []
        for fork in forks:
            fork.on_boot()
        for world in [self, *forks]:
            world.tell()
        return text, [self, *forks]

    def tell(self):
        """The modems of a lit card are told."""
        enabled = cards.enabled(self.card)
        if self.lit and self.shown != enabled:
            self.shown, self.refreshes = enabled, self.refreshes + 1

    def command(self, name, step, reply=None):
        """The card is given a command; its answer goes on to `reply`."""
        self.commanded = name
        if not self.lit:
            return "off"
        self.plan = False
        text, after = step(self.card)
        self.attempt = after
        if self.losing:
            self.lit = False
            return "lost"
        self.attempt, self.card = None, after or self.card
        return reply(text) if reply else text

    def send(self, messages):
        """Messages go to managers: what is said of them."""
        start = len(self.to_eims)
        self.to_eims += messages
        self.sent = tuple((start + at, what, to) for at, (what, to, _) in enumerate(messages))
        return " ".join(["sent", *(str(place) for place, *_ in self.sent)])

    def picked(self, pick, messages):
        place = len(messages) - 1 if pick == "last" else int(pick)
        return place if 0 <= place < len(messages) else None

    def on_eim(self, name):
        if name in self.managers:
            return "eim exists"
        self.managers[name] = Manager()
        return "eim ok"

    def on_initial(self, name, _address, _key):
        return self.command("initial", lambda card: cards.associated(card, name))

    def on_bind(self, name, association, last):
        if name not in self.managers:
            return "no such"
        return self.managers[name].bind(int(association), int(last))

    def on_order(self, name, *operations):
        if name not in self.managers:
            return "no such"
        return self.managers[name].order(tuple(lowered(word) for word in operations))

    def on_skip(self, name):
        return self.managers[name].skip() if name in self.managers else "no such"

    def on_kept(self, name):
        return self.managers[name].kept() if name in self.managers else "no such"

    def on_poll(self, name):
        if name not in self.managers:
            return "no such"
        return self.send([("poll", name, None)])

    def on_up(self, pick):
        place = self.picked(pick, self.to_eims)
        if place is None:
            return "no such"
        what, name, result = self.to_eims[place]
        if name not in self.managers:
            return "no such"
        manager = self.managers[name]
        self.delivered = (place, what, name)
        if what == "refusal":
            return "silent"
        if result:
            manager.hear(result)
            return self.reply(name, f"ack {result.seq}", result.seq)
        waiting = manager.waiting()
        if waiting is None:
            return self.reply(name, "nothing", None)
        association, counter, operations, _ = manager.orders[waiting]
        parts = (name, self.card.eid, association, counter, operations)
        return self.reply(name, "package", cards.Package(*parts))

    def reply(self, name, what, content):
        self.replied = (len(self.to_ipa), what, name)
        self.to_ipa.append((what, name, content))
        return f"reply {self.replied[0]} {what}"

    def on_down(self, pick, verdict="good"):
        place = self.picked(pick, self.to_ipa)
        if place is None:
            return "no such"
        what, name, content = self.to_ipa[place]
        self.delivered = (place, what, name)
        if what == "nothing":
            return "rest"
        if what != "package":
            return self.command("remove", lambda card: cards.removed(card, content))
        load = partial(cards.loaded, package=content, good=verdict == "good")
        return self.command("load", load, lambda text: self.obeyed(text, name))

    def obeyed(self, text, name):
        """The card's answer to a package of a manager: a refusal goes to it."""
        if text.startswith("loaded"):
            return self.taken(text)
        return f"{text} {self.send([('refusal', name, None)])}"

    def taken(self, text):
        """A package that was taken ends a row of failed probes."""
        if text.startswith("loaded"):
            self.failures = 0
        return text

    def on_load(self, verdict, digits):
        package = package_of(digits)
        if self.said in ("refused 1", "refused 8"):
            return self.command("load", lambda card: (self.said, None))
        if not package:
            return self.command("load", lambda card: ("refused 1", None))
        load = partial(cards.loaded, package=package, good=verdict == "good")
        return self.command("load", load, self.taken)

    def on_push(self):
        return self.command("results", lambda card: ("", None), lambda text: self.pushed())

    def pushed(self):
        pending = self.card.pending
        messages = [(f"result {result.seq}", result.id, result) for result in pending]
        return self.send(messages) if messages else "nothing pending"

    def on_probe(self, how):
        if how == "ok":
            self.failures = 0
            return "strikes 0"
        self.failures += 1
        if self.failures % 3:
            return f"strikes {self.failures % 3}"
        return self.command("rollback", cards.rolled_back)

    def on_rollback(self):
        return self.command("rollback", cards.rolled_back)

    def on_restart(self):
        self.failures = 0
        return "restarted"

    def on_cut(self, _calls, _tear):
        self.plan = True
        return "planned"

    def on_boot(self):
        self.plan, self.lit = False, not self.losing
        if self.losing:
            return "lost"
        self.attempt = None
        return "booted"

    def on_show(self):
        return cards.shown(self.card) if self.lit else "off"

    def on_detach(self, place):
        if self.modems is None:
            return self.said if self.said in ("detached", "no such") else "detached"
        if int(place) >= len(self.modems):
            return "no such"
        self.modems = self.modems[: int(place)] + self.modems[int(place) + 1 :]
        return "detached"

    def on_modems(self):
        """How many modems there are, and how often each was refreshed before the first line, is
        first told here."""
        if self.modems is None:
            self.modems = tuple(
                int(word.rpartition(":")[2]) - self.refreshes for word in self.said.split(" ")[1:]
            )
        shown = self.shown or "-"
        return " ".join(["modems", *(f"{shown}:{self.refreshes + n}" for n in self.modems)])


def lowered(operation):
    """An operation on a profile, with its ICCID in lower case."""
    name, colon, word = operation.partition(":")
    on_profile = name in ("enable", "enable!", "disable", "delete")
    return name + colon + word.lower() if on_profile else operation
