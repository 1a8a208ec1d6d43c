"""Where things stand in the picture: lanes one below the other, and tracks for messages."""

COLUMN = 78
MOST_TRACKS = 8
TRACK = 20


class Message:
    """A message: its place in its list, what it is, its manager, and its columns."""

    def __init__(self, place, what, name, column):
        self.place, self.what, self.name, self.column = place, what, name, column
        self.deliveries, self.track, self.order = [], None, 0

    def end(self):
        return self.deliveries[-1] if self.deliveries else self.column


def put_on_tracks(messages):
    """Gives each message the lowest track that is free while it is under way, and none where all
    are taken. The number of tracks that are used."""
    free_from = []
    for message in messages:
        place = next((at for at, free in enumerate(free_from) if free <= message.column), None)
        if place is None and len(free_from) < MOST_TRACKS:
            place = len(free_from)
            free_from.append(0)
        message.track = place
        if place is not None:
            free_from[place] = max(message.end(), message.column + 1)
    return len(free_from)


class Lanes:
    """The height of each lane."""

    def __init__(self, managers, others, ups, downs):
        self.rows, self.bottom = [], 36
        self.managers = {name: self.lane(name, 38, "manager") for name in managers}
        self.others = self.lane("not told", 38, "manager") if others else None
        self.ups = self.lane("network", 14 + TRACK * (max(ups, 1) + max(downs, 1)), "network")
        self.downs = self.ups + TRACK * max(ups, 1) + 6
        self.assistant = self.lane("assistant", 44, "assistant")
        self.card = self.lane("card", 60, "card")
        self.power = self.lane("power", 40, "power")
        self.modems = self.lane("modems", 44, "modems")
        self.texts = self.bottom
        self.height = self.bottom + 22

    def lane(self, name, height, kind):
        """Adds a lane, and gives its top."""
        top = self.bottom
        self.rows.append((name, top, height, kind))
        self.bottom += height
        return top

    def manager(self, name):
        """The middle of a manager's lane."""
        return self.managers.get(name, self.others or 36) + 19

    def track(self, message, up):
        """The height of a message's track, or none."""
        if message.track is None:
            return None
        return (self.ups if up else self.downs) + 14 + TRACK * message.track


def middle(column):
    """The middle of a column."""
    return column * COLUMN + COLUMN // 2
