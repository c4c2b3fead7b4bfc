"""What tests/faults, door_faults.py and link_faults.py share: checks that count, and the front door in a folder of its
own."""
import fcntl
import hashlib
import os
import pathlib
import shutil
import socket
import subprocess
import sys
import termios
import threading
import time

ROOT = pathlib.Path(__file__).resolve().parent.parent
PROGRAM = ROOT / "crates/verdicts/out/verdicts"
LINK = ROOT / "crates/link/out/link"
DOOR = ROOT / "verdicts"
HANGING = 120  # seconds, against hanging only
COMPLETE, CUT, NO_BOOK, FAILED, NOT_BUILT, USAGE = 0, 1, 2, 3, 4, 64
STOPPED = 2

HEAD = b"NTB\0\1"
# 01, The book and its listing: the worked command, refused with 5005 at 20.
WORKED = bytes.fromhex("01000014C08000730100008400000001 00000002")
SAMPLE = (ROOT / "books/sample.ntb").read_bytes()
SAMPLE_LISTING = (ROOT / "books/sample.listing").read_bytes()
ONLY_HEAD = b"NTB 1\nend 0 0\n"
UNWRITTEN = b"verdicts: writing failed\n"
STREAM = (ROOT / "streams/sample.nts").read_bytes()
STREAM_LISTING = (ROOT / "streams/sample.listing").read_bytes()
KIT = "a kit of the tests"

failures = []
checks = 0


def check(name, what, got, wanted):
    global checks
    checks += 1
    if got != wanted:
        failures.append(name)
        print(f"FAILED {name}: {what} is {shown(got)}, expected {shown(wanted)}")


def shown(value):
    text = repr(value)
    return text if len(text) < 300 else text[:200] + " .. " + text[-80:]


def has_end_line(output):
    return any(line.startswith(b"end ") and line.endswith(b"\n") for line in output.splitlines(keepends=True))


def run(command, book=None, stdin=None, stdout=subprocess.PIPE, env=None, before=None, cwd=None):
    """Status, output and messages. `book` is given through a pipe; else `stdin` is the standard input."""
    source = {"input": book} if book is not None else {"stdin": stdin if stdin is not None else subprocess.DEVNULL}
    done = subprocess.run([str(part) for part in command], stdout=stdout, stderr=subprocess.PIPE, timeout=HANGING,
                          env={**os.environ, **(env or {})}, preexec_fn=before, cwd=cwd, **source)
    return done.returncode, done.stdout or b"", done.stderr


def expect(name, result, status, output, true_listing=None):
    """`true_listing` is the book's listing where there is one: nothing else may have status 0 or an `end` line."""
    got_status, got_output, messages = result
    check(name, "status", got_status, status)
    check(name, "output", got_output, output)
    check(name, "an `end` line", has_end_line(got_output), true_listing is not None and got_output == true_listing)
    return messages


def expect_door(name, result, status, output=b"", true_listing=None):
    messages = expect("front door, " + name, result, status, output, true_listing)
    check("front door, " + name, "a message", messages != b"", status != COMPLETE)
    return messages


def expect_sample(name, result):
    expect_door(name, result, COMPLETE, SAMPLE_LISTING, SAMPLE_LISTING)


def expect_stream(name, result):
    expect_door(name, result, COMPLETE, STREAM_LISTING, STREAM_LISTING)


def expect_words(name, messages, *words):
    for word in words:
        check("front door, " + name, f"the word `{word}` in {shown(messages)}", word.encode() in messages, True)


def packets(command, book, size):
    """Each read gets one packet, so the pieces are these whatever the speed."""
    ours, theirs = socket.socketpair(socket.AF_UNIX, socket.SOCK_SEQPACKET)
    def send():
        with ours:
            for at in range(0, len(book), size):
                ours.send(book[at:at + size])
    writer = threading.Thread(target=send)
    writer.start()
    with theirs:
        result = run(command, stdin=theirs)
    writer.join()
    return result


def running(program):
    """The processes of this program."""
    found = []
    for process in pathlib.Path("/proc").glob("[0-9]*"):
        try:
            if os.readlink(process / "exe") == os.path.realpath(program):
                found.append(process.name)
        except OSError:
            continue
    return found


def wait_until_empty(pipe):
    waited = 0
    while int.from_bytes(fcntl.ioctl(pipe, termios.FIONREAD, bytes(4)), sys.byteorder):
        time.sleep(0.01)
        waited += 0.01
        if waited > HANGING:
            raise TimeoutError("the program reads nothing")


def closed(number):
    return lambda: os.close(number)


def as_nobody():
    """Root may read and write everything, so root tries permissions as nobody."""
    if os.getuid() == 0:
        os.setgid(65534)
        os.setuid(65534)


def longest_book():
    """3,275 worked commands and one of 31 octets, which is no multiple of 4: 65,536 octets with the head."""
    lines = "".join(f"{n + 1} {5 + 20 * n} 5005 20 0 263\n" for n in range(3275))
    listing = f"NTB 1\n{lines}3276 65505 5015 1 0 0\nend 3276 0\n"
    return HEAD + WORKED * 3275 + b"\1\0\0\x1f" + bytes(27), listing.encode()


def script(path, text):
    path.write_text(f"#!/bin/sh\n{text}\n")
    path.chmod(0o755)


def sha256(octets):
    return hashlib.sha256(octets).hexdigest()


class Imitation:
    """The front door in a folder of its own, with a stand-in for rt and whatever program a test puts there, as
    `verdicts` or as `link`."""

    def __init__(self, place, program=None, name="verdicts"):
        for part in ("crates/book/src", "crates/book/out/rlib/book.rlib", "crates/book/out/incremental",
                     "crates/verdicts/out", "crates/link/out", "target", "path"):
            (place / part).mkdir(parents=True)
        for part in (place, *place.parents[:1]):
            part.chmod(0o755)
        self.place = place
        self.door = place / "verdicts"
        self.name = name
        self.program = place / f"crates/{name}/out/{name}"
        self.stamp = place / f"crates/{name}/out/{name}.stamp"
        self.record = place / f"target/door/record.{name}"
        self.libraries = place / "target/door/libraries"
        self.log = place / "target/door/check.log"
        self.source = place / "crates/book/src/lib.rt"
        self.path = {"PATH": f"{place}/path:{os.environ['PATH']}"}
        shutil.copy(DOOR, self.door)
        self.source.write_text("fn main() {}\n")
        (place / "crates.txt").write_text("verdicts:\nlink:\n")
        (place / "crates/book/out/rlib/stamp").write_text("1" * 64)
        (place / "crates/book/out/rlib/book.rlib/code").write_text("of book\n")
        (place / "crates/book/out/incremental/kept").write_text("of a check of book\n")
        self.rt("exit 1")
        if program:
            shutil.copy(program, self.program)
            self.vouch()

    def rt(self, check, kit=KIT):
        """A stand-in that counts how often a check was asked for. The check gets the crate that it was asked for in, and
        runs in the place's own folder."""
        counted = f"crate=${{PWD##*/}}; cd '{self.place}'; echo >>target/asked\n{check}"
        script(self.place / "path/rt", f"case $1 in version) echo {kit} ;; run) {counted}\n;; esac")

    def asked(self):
        asked = self.place / "target/asked"
        return asked.read_text().count("\n") if asked.exists() else 0

    def vouch(self):
        """The record of a check that proved the present program from what is here."""
        def folder_hash(folder):
            """Of a line for each file, by name: its hash and its name. Of crates/ without what rt builds in it."""
            files = sorted((f"./{path.relative_to(folder)}", path) for path in folder.rglob("*") if path.is_file())
            return sha256("".join(f"{sha256(path.read_bytes())}  {name}\n" for name, path in files
                                  if name.split("/")[2:3] != ["out"]).encode())
        self.stamp.write_text("2" * 64 + sha256(self.program.read_bytes()))
        self.record.parent.mkdir(exist_ok=True)
        self.record.write_text(
            f"crates {folder_hash(self.place / 'crates')}\n"
            f"crates.txt {sha256((self.place / 'crates.txt').read_bytes())}\nkit {KIT}\n"
            f"program {sha256(self.program.read_bytes())}\n")
        book = self.place / "crates/book/out"
        self.libraries.write_text(
            f"library book {folder_hash(book / 'rlib')} {folder_hash(book / 'incremental')}\n"
            f"library {self.name} - -\n")

    def list(self, *arguments, env=None, **how):
        if not arguments and self.name == "verdicts":
            arguments, how = ("-",), {"book": SAMPLE, **how}
        elif not arguments:
            arguments, how = ("--link", "-"), {"book": STREAM, **how}
        return run([self.door, *arguments], env={**self.path, **(env or {})}, **how)
