# The desk host at a terminal, and on files that come slowly or fail midway. tests/desk runs this in the folder with its batches; the host's command is the
# arguments. It writes a line for each difference, then how many runs there were and how many differences.
import fcntl
import os
import pty
import re
import select
import shutil
import signal
import struct
import subprocess
import sys
import termios
import threading
import time
import tty

PATIENCE = 120
ENGLISH, CZECH = "en_GB.UTF-8", "cs_CZ.UTF-8"
PROGRESS = {ENGLISH: r"desk: reading and checking the batch \.+\r\n", CZECH: r"desk: čte se a kontroluje dávka \.+\r\n"}

runs = 0
differences = 0


def compare(what, wanted, written):
    global runs, differences
    runs += 1
    if re.fullmatch(wanted, written) is None:
        differences += 1
        print(f"{what}: {written!r}, and should match {wanted!r}")


# A copy of a batch with a FIFO in the place of one file. Each reader gets the file's bytes after some seconds, or at once.
class Slow:
    def __init__(self, folder, of, name):
        shutil.copytree(of, folder)
        self.path = f"{folder}/{name}.txt"
        with open(self.path, "rb") as file:
            self.bytes = file.read()
        os.remove(self.path)
        os.mkfifo(self.path)

    def feed(self, seconds):
        def feeding():
            try:
                with open(self.path, "wb") as file:
                    time.sleep(seconds)
                    file.write(self.bytes)
            except BrokenPipeError:
                pass  # the reader is gone
        threading.Thread(target=feeding, daemon=True).start()


# What a terminal is sent until nobody writes to it any more.
def all_from(terminal):
    written, deadline = b"", time.monotonic() + PATIENCE
    while select.select([terminal], [], [], max(0, deadline - time.monotonic()))[0]:
        try:
            part = os.read(terminal, 65536)
        except OSError:
            break
        if not part:
            break
        written += part
    return written.decode()


# Everything that one run writes, with standard output and standard error on one terminal.
def at_terminal(command, language=ENGLISH):
    terminal, end = pty.openpty()
    process = subprocess.Popen(command, stdin=subprocess.DEVNULL, stdout=end, stderr=end, env={**os.environ, "LANG": language})
    os.close(end)
    written = all_from(terminal)
    process.kill()
    process.wait()
    os.close(terminal)
    return written


def without_terminal(command, language=ENGLISH):
    return subprocess.run(command, stdin=subprocess.DEVNULL, capture_output=True, timeout=PATIENCE, env={**os.environ, "LANG": language})


# The dots come first and end with their line, then comes the answer, as it is without a terminal.
def answers_after_dots(desk):
    slow, refused = Slow("slow", "ring", "Udaje"), Slow("slow-refused", "samples/refusal-8", "Udaje")
    day = ["2.7.2001", "--no-holidays"]
    questions = [
        (slow, ["check", "slow"], ENGLISH), (slow, ["check", "slow"], CZECH), (slow, ["sale", "slow", "790300", "1", day[0], "1", "2", day[1]], ENGLISH),
        (slow, ["trips", "slow", "1", "2"] + day, ENGLISH), (slow, ["trips", "slow", "1", "2", "31.6.2001", day[1]], ENGLISH),
        (slow, ["stops", "slow", "790200", "2"], ENGLISH), (slow, ["stop", "slow", "Řásná"], ENGLISH), (refused, ["check", "slow-refused"], ENGLISH),
        (refused, ["trips", "slow-refused", "101", "103"] + day, ENGLISH),
    ]
    for batch, question, language in questions:
        batch.feed(0)
        answer = without_terminal(desk + question, language).stdout.decode()
        batch.feed(1.6)
        compare(f"desk {question} at a terminal", PROGRESS[language] + re.escape(answer.replace("\n", "\r\n")), at_terminal(desk + question, language))


def dots_go_on(desk):
    slow = Slow("slower", "ring", "VerzeJDF")
    os.remove("slower/Mistenky.txt")
    missing = r"desk: slower/Mistenky\.txt is missing and counts as empty\n"
    accepted = r"ACCEPTED stops 9 lines 2 trips 4 trip stops 30\n"
    slow.feed(3.4)
    two = PROGRESS[ENGLISH].replace(r"\.+", r"\.\.+")
    later = f"({PROGRESS[ENGLISH]})?"
    compare("a missing file after the dots", (two + missing + later + accepted).replace(r"\n", r"\r?\n"), at_terminal(desk + ["check", "slower"]))
    slow.feed(1.6)
    quiet = without_terminal(desk + ["check", "slower"])
    compare("no terminal, standard output", accepted, quiet.stdout.decode())
    compare("no terminal, standard error", missing, quiet.stderr.decode())


# A check under a second shows nothing. A busy machine may need several tries to have one.
def no_dots_when_quick(desk):
    for _ in range(30):
        began = time.monotonic()
        written = at_terminal(desk + ["check", "ring"])
        if time.monotonic() - began < 0.9:
            break
    compare("a quick check", r"ACCEPTED stops 9 lines 2 trips 4 trip stops 30\r\n", written)


# An alarm that was set before the host began is not the host's: without a terminal it goes off, though a line of dots would have been ended by then.
def alarm_of_others(desk):
    slow = Slow("alarmed", "ring", "Udaje")
    os.remove("alarmed/Zastavky.txt")
    slow.feed(10)
    run = subprocess.run(desk + ["check", "alarmed"], stdin=subprocess.DEVNULL, capture_output=True, timeout=PATIENCE, preexec_fn=lambda: signal.alarm(3),
                         env={**os.environ, "LANG": ENGLISH})
    compare("an alarm of others, standard error", r"desk: alarmed/Zastavky\.txt is missing and counts as empty\n", run.stderr.decode())
    compare("an alarm of others, status", str(-signal.SIGALRM), str(run.returncode))


def waiting_bytes(end):
    return struct.unpack("i", fcntl.ioctl(end, termios.FIONREAD, b"\0" * 4))[0]


# A read that fails after others went well. The file is the terminal of this session; from the foreground the host reads the beginning of a record there, then it is
# in the background, where a process that ignores SIGTTIN is refused a read with EIO.
def fails_midway(desk):
    terminal, end = pty.openpty()
    fcntl.ioctl(end, termios.TIOCSCTTY, 0)
    tty.setraw(end)
    signal.signal(signal.SIGTTOU, signal.SIG_IGN)
    signal.signal(signal.SIGTTIN, signal.SIG_IGN)
    shutil.copytree("ring", "failing")
    os.remove("failing/Udaje.txt")
    os.symlink(os.ttyname(end), "failing/Udaje.txt")
    os.write(terminal, b'"790200","1","the beginning')

    def to_foreground():
        os.setpgid(0, 0)
        os.tcsetpgrp(end, os.getpid())

    process = subprocess.Popen(desk + ["check", "failing"], stdin=subprocess.DEVNULL, stdout=subprocess.PIPE, stderr=subprocess.PIPE, preexec_fn=to_foreground,
                               env={**os.environ, "LANG": ENGLISH})
    deadline = time.monotonic() + PATIENCE
    while waiting_bytes(end) > 0 and process.poll() is None and time.monotonic() < deadline:
        time.sleep(0.05)
    compare("bytes of the beginning that are left", "0", str(waiting_bytes(end)))
    compare("whether the host still reads", "True", str(process.poll() is None))
    os.tcsetpgrp(end, os.getpgrp())
    os.write(terminal, b' and the end";\r\n')
    written, complaint = process.communicate(timeout=PATIENCE)
    compare("a read that fails midway, standard output", "", written.decode())
    compare("a read that fails midway, standard error", r"desk: failing/Udaje\.txt can't be read: reading failed\n", complaint.decode())
    compare("a read that fails midway, status", "2", str(process.returncode))


# The failing read wants a session of its own.
def in_own_session(desk):
    global runs, differences
    child = subprocess.run([sys.executable, __file__, "fails-midway"] + desk, stdin=subprocess.DEVNULL, stdout=subprocess.PIPE, start_new_session=True)
    lines = child.stdout.decode().splitlines()
    for line in lines[:-1]:
        print(line)
    counts = lines[-1].split() if child.returncode == 0 and lines else ["1", "1"]
    runs += int(counts[0])
    differences += int(counts[1])


if sys.argv[1] == "fails-midway":
    fails_midway(sys.argv[2:])
else:
    answers_after_dots(sys.argv[1:])
    dots_go_on(sys.argv[1:])
    no_dots_when_quick(sys.argv[1:])
    alarm_of_others(sys.argv[1:])
    in_own_session(sys.argv[1:])
print(runs, differences)
