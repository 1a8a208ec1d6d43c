"""The package that octets spell, as far as a picture needs it (docs/FORMATS.md)."""

from card import Package

PROFILES = {0xA0: "enable", 0xA1: "disable", 0xA2: "delete", 0x83: "list"}
ENTRIES = {0xA8: "add", 0xA9: "update", 0xAA: "drop", 0x8B: "eims"}


def elements(octets):
    """The elements that octets are made of: tags and contents."""
    found = []
    while octets:
        tag, size, head = octets[0], octets[1], 2
        if size > 0x80:
            head = 2 + size - 0x80
            size = int.from_bytes(octets[2:head], "big")
        if len(octets) < head + size:
            raise ValueError("too short")
        found.append((tag, octets[head : head + size]))
        octets = octets[head + size :]
    return found


def operation_of(tag, content):
    """One operation, as an order spells it."""
    fields = elements(content)
    if tag in (0x83, 0x8B):
        return PROFILES.get(tag) or ENTRIES[tag]
    if tag in ENTRIES:
        return f"{ENTRIES[tag]}:{fields[0][1].decode('ascii')}"
    flag = "!" if tag == 0xA0 and len(fields) == 2 else ""
    return f"{PROFILES[tag]}{flag}:{fields[0][1].hex()}"


def package_of(digits):
    """The package that hexadecimal digits spell, or none."""
    try:
        ((_, outer),) = elements(bytes.fromhex(digits))
        (_, inner), (_, _signature) = elements(outer)
        (_, name), (_, eid), (_, association), (_, counter), (_, body) = elements(inner)
        operations = tuple(operation_of(tag, content) for tag, content in elements(body))
        numbers = [int.from_bytes(octets, "big") for octets in (association, counter)]
        package = Package(name.decode("ascii"), eid.hex(), *numbers, operations)
        return package if operations else None
    except (ValueError, IndexError, KeyError, UnicodeDecodeError):
        return None
