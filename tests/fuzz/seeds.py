"""seeds.py INTO FOLDER..: writes inputs of the fuzzers, in the form that tests/fuzz/input.c reads: the batch of each folder with each call. A folder with a file
that is no file or too long for a part is left out; a missing file is an empty one. Then a batch with every sign and every type of time code in it, its files by rising
key, falling and shuffled."""

import os
import random
import re
import struct
import sys

NAMES = "VerzeJDF Zastavky Pevnykod Dopravci Linky Spoje Zaslinky Zasspoje Udaje Caskody Altdop Altlinky Mistenky".split()
CALLS = 24  # more than there are: the harness takes the rest of the division
LONGEST_PART = 16384


def file_of(path):
    if not os.path.exists(path):
        return b""
    if not os.path.isfile(path) or os.path.getsize(path) > LONGEST_PART:
        return None
    with open(path, "rb") as file:
        return file.read()


def question(files):
    """Line, trip, day, month, year, from, to, file, record, field, place, day number: a sale on the trip of Zasspoje's first record."""
    calls = re.findall(rb'^"(\d{1,9})","(\d{1,9})","(\d{1,9})",', files[7], re.M) or [(b"790123", b"1", b"1")]
    own = [c for c in calls if c[:2] == calls[0][:2]]
    return [int(own[0][0]), int(own[0][1]), 11, 6, 2001, int(own[0][2]), int(own[-1][2]), 8, 2, 4, 7, 37051]


def name(files):
    found = re.search(rb'^"\d+","([^"]*)","([^"]*)","([^"]*)",', files[1], re.M)
    return list(found.groups()) if found else [b"", b"", b""]


def written(call, numbers, parts):
    head = struct.pack("<BBH", call, 0x55 if call % 2 else 0, 40) + struct.pack("<12Q", *numbers)
    return head + b"".join(struct.pack("<H", len(part)) + part for part in parts)


def lines_of(records):
    return b"".join(b'"' + b'","'.join(f.encode("cp1250") for f in record) + b'";\r\n' for record in records)


SIGNS = "X + 1 2 3 4 5 6 7 R # | < @ % W w x ~ I ( ) $ { } [ O v s \u00a7".split()
TRIP_SIGNS = "X + 1 2 3 4 5 6 7 R # @ % I { [ O s".split()
STOP_SIGNS = "( ) x \u00a7".split()
LINES, TRIPS, STOPS = ["790001", "790002", "790010", "791000"], 8, 6

# What the nth trip of a line has in Caskody: mark, type, dates; with types 5 to 8 and 1 or 3 in trips of their own.
CODES = [
    [("10", "1", "01072001", "31082001"), ("10", "4", "10072001", "")], [("11", "2", "24122001", ""), ("11", "2", "31122001", "")],
    [("12", "3", "05072001", ""), ("O", "", "", "")], [("13", "5", "", ""), ("13", "4", "01112001", "30112001")], [("14", "6", "", "")],
    [("15", "7", "01092001", "31012002")], [("16", "8", "01092001", "31012002"), ("m", "", "", "")], [],
]


def code(sign):
    return str(SIGNS.index(sign) + 1)


def trip_codes(chance, trip):
    # type 3 stands alone
    day = [code(s) for s in chance.sample(TRIP_SIGNS[:9], chance.choice([0, 1, 2]))] if trip != 3 else []
    codes = day + [code(s) for s in chance.sample(TRIP_SIGNS[9:], 2)]
    return codes + [""] * (10 - len(codes))


def calls_of(chance, line, trip):
    """A trip's records in travel order: the first and last have a time, those between a time, a bar or an angle."""
    order = range(1, STOPS + 1) if trip % 2 == 1 else range(STOPS, 0, -1)
    for n, tariff in enumerate(order):
        minute = 360 + 40 * trip + 5 * n
        time = f"{minute // 60:02}{minute % 60:02}"
        form = ("", time) if n == 0 else (time, "") if n == STOPS - 1 else chance.choice([("", time), (time, time), ("", "|"), ("<", "<"), ("|", "|")])
        km = "" if "<" in form else str(2 * n)
        sign = code(chance.choice(STOP_SIGNS)) if chance.randrange(3) == 0 else ""
        yield [line, str(trip), str(tariff), str(100 + tariff), "", sign, "", km, *form]


def rich(chance):
    trips = [(line, trip) for line in LINES for trip in range(1, TRIPS + 1)]
    return [
        [["1.8"]],
        [[str(100 + n), f"Obec {n // 2}", "", "u k\u0159\u00ed\u017ee", "TR", "CZ", code(chance.choice("@%Ww")), code("v"), "", "", "", ""] for n in range(1, STOPS + 1)],
        [[str(n + 1), sign, ""] for n, sign in enumerate(SIGNS)],
        [["00012345", "", "Autobusy", "1", "", "Obec 1", "568 000 111", "", "", "", ""], ["00054321", "", "Jan", "2", "Jan", "Obec 2", "568 000 222", "", "", "", ""]],
        [[line, "Odkud - kam", "00012345", "Z", "", "", "", "", "10062001", "08062002"] for line in LINES],
        [[line, str(trip), *trip_codes(chance, trip)] for line, trip in trips],
        [[line, str(n), "", str(100 + n), code(chance.choice(STOP_SIGNS + ["$"])) if n % 3 == 0 else "", "", ""] for line in LINES for n in range(1, STOPS + 1)],
        [record for line, trip in trips for record in sorted(calls_of(chance, line, trip), key=lambda r: int(r[2]))],
        [[line, str(n), "text"] for line in LINES for n in (1, 2)],
        [[line, str(trip), str(n + 1), *fields, ""] for line, trip in trips for n, fields in enumerate(CODES[trip - 1])],
        [[line, "1", "00054321", code("X"), "", "", "", "", "", "", "", "", ""] for line in LINES],
        [[LINES[0], "7", "CZ"]],
        [[LINES[0], "0", "text"], [LINES[1], "2", "text"]],
    ]


def rich_batches():
    for seed in range(4):
        chance = random.Random(seed)
        files = rich(chance)
        yield f"rich-{seed}-rising", [lines_of(records) for records in files]
        yield f"rich-{seed}-falling", [lines_of(records[::-1]) for records in files]
        for records in files:
            chance.shuffle(records)
        yield f"rich-{seed}-shuffled", [lines_of(records) for records in files]


def put(into, called, files):
    numbers = question(files)
    holidays = struct.pack("<3Q", 37075, 37076, 37190)
    parts = files + name(files) + [b'U "l\xedpy" 3', holidays, b"", struct.pack("<14Q", *numbers[:7] * 2)]
    for call in range(CALLS):
        with open(f"{into}/{called}-{call:02}", "wb") as file:
            file.write(written(call, numbers, parts))


def main():
    into = sys.argv[1]
    os.makedirs(into, exist_ok=True)
    for folder in sys.argv[2:]:
        files = [file_of(f"{folder}/{file}.txt") for file in NAMES]
        if None not in files:
            put(into, os.path.basename(folder.rstrip("/")), files)
    for called, files in rich_batches():
        put(into, called, files)


main()
