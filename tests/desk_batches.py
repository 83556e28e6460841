# The folders that tests/desk runs the desk host on, made in the current folder. Texts are written in CP1250 by Python's own table.
import os
import random
import shutil

NAMES = ["VerzeJDF", "Zastavky", "Pevnykod", "Dopravci", "Linky", "Spoje", "Zaslinky", "Zasspoje", "Udaje", "Caskody", "Altdop", "Altlinky", "Mistenky"]


def write(folder, name, records):
    lines = ['"' + '","'.join(fields) + '";\r\n' for fields in records]
    with open(f"{folder}/{name}.txt", "wb") as file:
        file.write("".join(lines).encode("cp1250"))


def batch(folder, files):
    os.mkdir(folder)
    for name in NAMES:
        write(folder, name, files.get(name, []))


def copy(folder, of="samples/good"):
    shutil.copytree(of, folder)


def replace(folder, name, old, new):
    path = f"{folder}/{name}.txt"
    with open(path, "rb") as file:
        text = file.read()
    assert old in text, (folder, name, old)
    with open(path, "wb") as file:
        file.write(text.replace(old, new, 1))


# A line that comes back to its first two stops, and a line with a sign at almost every stop. Stops 7 and 8 have one name, 9 has nearly that name.
def ring():
    stop = lambda number, town, part="", place="": [number, town, part, place, "JH", "CZ"] + [""] * 6
    trip = lambda line, number, code="": [line, number, code] + [""] * 9
    line = lambda number, name: [number, name, "00012345", "Z", "", "", "", "", "10062001", "08062002"]
    line_stop = lambda line, tariff, stop, code="": [line, tariff, "", stop, code, "", ""]
    call = lambda line, trip, tariff, stop, km, arrival, departure, code="": [line, trip, tariff, stop, "", code, "", km, arrival, departure]
    round_stops = ["1", "2", "3", "4", "2", "1"]
    out = ["0700", "0705", "0720", "0730", "0745", "0750"]
    back = ["0950", "0945", "0930", "0920", "0905", "0900"]
    calls = []
    for i in range(6):
        calls.append(call("790200", "1", str(i + 1), round_stops[i], str(i * 3), out[i] if i == 5 else "", "" if i == 5 else out[i]))
        calls.append(call("790200", "2", str(i + 1), round_stops[i], str(15 - i * 3), back[i] if i == 0 else "", "" if i == 0 else back[i]))
    signed = [
        ("1", "7", "", "0", "", "0600"), ("2", "1", "3", "5", "", "0610"), ("3", "2", "4", "9", "", "0620"), ("4", "6", "5", "12", "0628", "0640"),
        ("5", "3", "6", "20", "", "0650"), ("6", "4", "6", "26", "", "0700"), ("7", "5", "", "30", "", "0710"), ("8", "9", "", "33", "", "|"),
        ("9", "8", "", "40", "0730", ""),
    ]
    for tariff, stop_number, code, km, arrival, departure in signed:
        calls.append(call("790300", "1", tariff, stop_number, km, arrival, departure))
        calls.append(call("790300", "5", tariff, stop_number, km, arrival, departure, "7" if tariff in ("2", "4") else ""))
    batch("ring", {
        "VerzeJDF": [["1.8"]],
        "Zastavky": [stop("1", "Telč", "", "nám."), stop("2", "Telč", "Staré Město", "škola"), stop("3", "Mrákotín", "", 'U "Zlaté hvězdy"'),
                     stop("4", "Řásná"), stop("5", "Lhotka", "U lesa"), stop("6", "Slavonice", "", "celnice"), stop("7", "Dačice", "", "aut.nádr."),
                     stop("8", "Dačice", "", "aut.nádr."), stop("9", "Dačice", "", "aut.nádr")],
        "Pevnykod": [["1", "X", ""], ["2", "+", ""], ["3", "(", ""], ["4", ")", ""], ["5", "$", ""], ["6", "§", ""], ["7", "x", ""]],
        "Dopravci": [["00012345", "", "Ježek & syn", "1", "", "Telč 1", "568 000 111", "", "", "", ""]],
        "Linky": [line("790200", "Telč - Mrákotín - Řásná a zpět"), line("790300", "Dačice - Slavonice – „Jižní větev“")],
        "Spoje": [trip("790200", "1", "1"), trip("790200", "2", "2"), trip("790300", "1"), trip("790300", "5")],
        "Zaslinky": [line_stop("790200", str(i + 1), round_stops[i]) for i in range(6)] +
                    [line_stop("790300", tariff, stop_number, code) for tariff, stop_number, code, *_ in signed],
        "Zasspoje": calls,
    })


# The same batch with each file's records the other way round.
def backwards():
    copy("backwards", "ring")
    for name in NAMES[1:]:
        path = f"backwards/{name}.txt"
        with open(path, "rb") as file:
            lines = file.read().splitlines(True)
        with open(path, "wb") as file:
            file.write(b"".join(reversed(lines)))


# An even trip that calls 130 times at each of two stops, so that there are more pairs than the host asks about at once, and what may be sold is asked in more than
# one portion. Nobody may board or alight at most of them. It travels by falling tariff number: what departs first is asked last.
def crowded():
    copy("crowded")
    stop = lambda tariff: "1" if tariff > 130 else "2"
    sign = {"1": "1", "2": "2"}
    open_calls = (260, 200, 131, 130, 100, 1)
    minute = lambda tariff: 360 + 260 - tariff
    time = lambda tariff: f"{minute(tariff) // 60:02}{minute(tariff) % 60:02}"
    write("crowded", "Zastavky", [[number, "Telč", "", number, "JH", "CZ"] + [""] * 6 for number in ("1", "2")])
    write("crowded", "Pevnykod", [["1", "(", ""], ["2", ")", ""]])
    write("crowded", "Spoje", [["790123", "2"] + [""] * 10])
    write("crowded", "Zaslinky", [["790123", str(tariff), "", stop(tariff), "" if tariff in open_calls else sign[stop(tariff)], "", ""] for tariff in range(1, 261)])
    write("crowded", "Zasspoje", [["790123", "2", str(tariff), stop(tariff), "", "", "", "0", time(tariff) if tariff == 1 else "", "" if tariff == 1 else time(tariff)]
                                  for tariff in range(1, 261)])
    for name in ("Caskody", "Altdop", "Mistenky"):
        write("crowded", name, [])


# A stop for each byte above 127 that CP1250 defines: its number is the byte's, its name is the byte.
def letters():
    copy("letters")
    with open("letters/Zastavky.txt", "ab") as file:
        for byte in range(128, 256):
            if byte not in (0x81, 0x83, 0x88, 0x90, 0x98):
                number = str(1000 + byte).encode()
                file.write(b'"%b","%b","","","TR","CZ","","","","","","";\r\n' % (number, bytes([byte])))
    with open("letters/list", "wb") as file:
        for byte in range(128, 256):
            if byte not in (0x81, 0x83, 0x88, 0x90, 0x98):
                file.write(f"{byte} {bytes([byte]).decode('cp1250')}\n".encode())


def damaged():
    copy("rule-dopravci")
    replace("rule-dopravci", "Dopravci", '"2","Josef Říha"'.encode("cp1250"), b'"2",""')
    copy("rule-linky")
    replace("rule-linky", "Linky", b'"08062002"', b'"09062001"')
    copy("rule-zasspoje")
    replace("rule-zasspoje", "Zasspoje", b'"0","","0610"', b'"","","0610"')
    copy("rule-caskody")
    replace("rule-caskody", "Caskody", b'"11","5"', b'"O","5"')
    copy("rule-altdop")
    replace("rule-altdop", "Altdop", b'"01072001","31082001"', b'"",""')
    copy("two-signs", "ring")
    replace("two-signs", "Zasspoje", b'"790300","5","2","1","","7",""', b'"790300","5","2","1","","7","3"')
    copy("two-versions")
    write("two-versions", "VerzeJDF", [["1.8"], ["1.8"]])
    copy("escape")
    replace("escape", "Udaje", b"Na lince", b"\x1b[2J\x81")
    copy("folder-for-file")
    os.remove("folder-for-file/Linky.txt")
    os.mkdir("folder-for-file/Linky.txt")
    copy("link-to-itself")
    os.remove("link-to-itself/Linky.txt")
    os.symlink("Linky.txt", "link-to-itself/Linky.txt")
    copy("link-to-nothing")
    os.remove("link-to-nothing/Linky.txt")
    os.symlink("nothing.txt", "link-to-nothing/Linky.txt")
    copy("no-permission")
    os.chmod("no-permission/Linky.txt", 0)
    copy("closed")
    copy("closed/inner")
    os.chmod("closed", 0)
    copy("half-a-line-end")
    with open("half-a-line-end/VerzeJDF.txt", "wb") as file:
        file.write(b'"1.8";\r')
    copy("some-missing")
    for name in ("Udaje", "Altlinky", "Mistenky"):
        os.remove(f"some-missing/{name}.txt")
    os.mkdir("empty")
    for folder, length in (("too-long", 16777216), ("far-too-long", 20000000), ("just-not-too-long", 16777215)):
        copy(folder)
        with open(f"{folder}/Udaje.txt", "wb") as file:
            file.truncate(length)
    copy("long-record")
    write("long-record", "Udaje", [["790123", "1", "č" * 3000]])


def lists():
    def put(name, text):
        with open(name, "wb") as file:
            file.write(text)
    put("holidays", "# státní svátky\r\n5.7.2001\r\n 2001-07-06 # Jan Hus\n\n37190\n".encode())
    put("from-an-editor", "\ufeff5.7.2001".encode())
    put("last-year", b"5.7.2000\n")
    put("no-such-date", b"5.7.2001\n# comment\n31.6.2001\n")
    put("a-word", b"5.7.2001\nchristmas\n")
    put("last-days", b"37076\n0\n73048\n")
    put("past-the-calendar", b"37076\n73049\n")
    put("as-in-jdf", b"05072001\n")
    put("past-all-numbers", b"18446744073709551616\n")
    put("a-nul", b"5.7.2001\n5.7.\0002001\n")
    put("none", b"")


# Copies with one or more files spoilt.
def spoilt(chance, text):
    at = chance.randrange(len(text) + 1)
    end = min(len(text), at + chance.randrange(60))
    return chance.choice([
        text[:at],
        text[:at] + text[end:],
        text[:end] + text[at:],
        text[:at] + bytes(chance.randrange(256) for _ in range(end - at)) + text[end:],
        text[:at] + chance.choice([b'"', b",", b";", b"\r\n", b'","', b'";\r\n', b'"0","']) + text[at:],
        b"\n" * 5000,
        b'"' * 5000,
        b"9" * 5000 + b"\r\n",
        bytes(chance.randrange(256) for _ in range(3000)),
    ])


def any_bytes():
    for seed in range(40):
        chance = random.Random(seed)
        folder = f"damaged-{seed}"
        copy(folder, "ring")
        for name in chance.sample(NAMES, chance.choice([1, 1, 1, 3, 13])):
            path = f"{folder}/{name}.txt"
            with open(path, "rb") as file:
                text = file.read()
            with open(path, "wb") as file:
                file.write(spoilt(chance, text))


ring()
backwards()
crowded()
letters()
damaged()
lists()
any_bytes()
