#!/usr/bin/env python3
"""Packs a campaign that is described in JSON into a record: a packer written from docs/FORMAT.md alone.

usage: pack_example.py CAMPAIGN.json > CAMPAIGN.atl
       pack_example.py --check CAMPAIGN.json CAMPAIGN.atl      (says whether these are its bytes)

samples/worked.json and samples/isles.json show the description. What is left out counts as 0, no, or none.
"""
import json
import struct
import sys

KINDS = ["add_attacker", "add_defender", "remove_attacker", "remove_defender", "battle"]


def date(text):
    """The 32 bits of a date such as 1444-11-11."""
    year, month, day = map(int, text.split("-"))
    return struct.pack("<I", year * 10000 + month * 100 + day)


def tag(text):
    """The three bytes of a tag."""
    if len(text.encode("ascii")) != 3:
        raise ValueError(f"a tag has three bytes: {text!r}")
    return text.encode("ascii")


def bits(row, *names):
    """A byte of flags: bit 0 is the first name, and so on."""
    return sum(1 << bit for bit, name in enumerate(names) if row.get(name))


def owned(rows, name):
    """What all rows own under a name, one row's behind the other's."""
    return [item for row in rows for item in row.get(name, [])]


def country(row):
    counts = (len(row.get("previous_tags", [])), len(row.get("switches", [])))
    flags = bits(row, "human", "was_player", "has_switched_nation")
    return tag(row["tag"]) + struct.pack("<BiHH", flags, row.get("cities", 0), *counts)


def province(row):
    return struct.pack("<H", row["id"]) + tag(row.get("owner", "---")) + struct.pack("<H", len(row.get("events", [])))


def war_event(row):
    return date(row["date"]) + bytes([KINDS.index(row["kind"])]) + tag(row["tag"])


def string(text):
    """A string: its length in one byte, cut at the end of a character if it is too long."""
    kept = text.encode()[:255].decode(errors="ignore").encode()
    return bytes([len(kept)]) + kept


def pack(campaign):
    """The record of a campaign: the head, then the sections in their order."""
    countries, provinces = campaign.get("countries", []), campaign.get("provinces", [])
    wars, ledger = campaign.get("wars", []), campaign.get("ledger", [])
    strings = [text for player in campaign.get("players", []) for text in player]
    previous, switches = owned(countries, "previous_tags"), owned(countries, "switches")
    events, war_events, points = owned(provinces, "events"), owned(wars, "events"), owned(ledger, "points")

    head = b"ATL" + struct.pack("<HB", 1, bits(campaign, "ironman", "multiplayer"))
    head += date(campaign["start"]) + date(campaign["current"])
    head += struct.pack("<HHIII", len(countries), len(provinces), len(previous), len(switches), len(events))
    head += struct.pack("<HHIHI", len(strings), len(wars), len(war_events), len(ledger), len(points))

    sections = [
        map(country, countries),
        map(tag, previous),
        (date(row["date"]) + tag(row["from"]) for row in switches),
        map(province, provinces),
        (date(row["date"]) + tag(row["tag"]) for row in events),
        (struct.pack("<H", len(row.get("events", []))) for row in wars),
        map(war_event, war_events),
        (tag(row["tag"]) + struct.pack("<H", len(row.get("points", []))) for row in ledger),
        (struct.pack("<Hi", year, value) for year, value in points),
        map(string, strings),
    ]
    return head + b"".join(row for section in sections for row in section)


def main(arguments):
    if len(arguments) == 3 and arguments[0] == "--check":
        with open(arguments[1], encoding="utf-8") as told, open(arguments[2], "rb") as kept:
            packed, expected = pack(json.load(told)), kept.read()
        if packed != expected:
            at = next((i for i, (a, b) in enumerate(zip(packed, expected)) if a != b), min(len(packed), len(expected)))
            sys.exit(f"{arguments[2]} differs from {arguments[1]} packed: at offset {at}; {len(expected)} and {len(packed)} bytes")
        print(f"{arguments[2]}: {len(packed)} bytes, as {arguments[1]} packs")
    elif len(arguments) == 1:
        with open(arguments[0], encoding="utf-8") as told:
            sys.stdout.buffer.write(pack(json.load(told)))
    else:
        sys.exit(__doc__)


main(sys.argv[1:])
