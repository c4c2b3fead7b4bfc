"""What a stream brings, tried on the program `link` and on the front door's `--link`: lines that come at once, a last
line that is kept until the program has ended and was compared again, and no end in sight.

Where nothing differs from a book, door_faults.py stands for both.
"""
import fcntl
import os
import re
import resource
import select
import shutil
import signal
import subprocess
import threading

from door_faults import catches, proves, refused, wait_for
from fault_tools import (COMPLETE, CUT, DOOR, FAILED, HANGING, Imitation, LINK, NOT_BUILT, PROGRAM, ROOT, SAMPLE,
                         STOPPED, STREAM, STREAM_LISTING, USAGE, WORKED, as_nobody, check, closed, expect, expect_door,
                         expect_sample, expect_stream, expect_words, packets, run, running, script, wait_until_empty)

LINES = STREAM_LISTING[:STREAM_LISTING.index(b"end")]
LENGTHS = (160, 144, 20, 20, 100, 188)  # of the commands in streams/sample.nts
EMPTY = b"end 0 0\n"


def both(name, status, output, true_listing=None, door_output=None, **how):
    """The program, whose own status is always 0, and the front door on standard input."""
    expect("link, " + name, run([LINK], **how), 0, output, true_listing)
    passed = output if door_output is None else door_output
    expect_door(f"--link, {name}", run([DOOR, "--link", "-"], **how), status, passed, true_listing)


def lines_of(octets):
    """The lines of the commands that are whole in the first octets of streams/sample.nts."""
    whole = sum(1 for n in range(len(LENGTHS)) if sum(LENGTHS[:n + 1]) <= octets)
    return b"".join(LINES.splitlines(keepends=True)[:whole])


def streams():
    for name, status in (("sample", COMPLETE), ("cut", CUT), ("stopped", STOPPED), ("short", STOPPED)):
        listing = (ROOT / f"streams/{name}.listing").read_bytes()
        result = run([DOOR, "--link", ROOT / f"streams/{name}.nts"])
        expect_door(f"streams/{name}.nts", result, status, listing, listing if status == COMPLETE else None)
    for size in (1, 3, 20, 159, 161, 631):
        expect(f"link, pieces of {size}", packets([LINK], STREAM, size), 0, STREAM_LISTING, STREAM_LISTING)
    expect_stream("--link, pieces of 1", packets([DOOR, "--link", "-"], STREAM, 1))


def lengths():
    both("empty input", COMPLETE, EMPTY, EMPTY, book=b"")
    both("one octet", CUT, b"1 0 cut\n", book=b"\1")
    both("the worked command without its last octet", CUT, b"1 0 cut\n", book=WORKED[:-1])
    for length, line in ((19, b"1 0 stopped 5015 1\n"), (20, b"1 0 cut\n"), (16384, b"1 0 cut\n"),
                         (16385, b"1 0 stopped 7001 1\n")):
        head = b"\1" + length.to_bytes(3, "big")
        expect(f"link, a length field of {length}", run([LINK], book=head), 0, line)


def longer_than_memory(folder):
    """More octets and lines than the files may grow to, or the program, sed, cat and bash may take."""
    copy = Imitation(folder / "longer", LINK, "link")
    count = 250000
    listing = "".join(f"{n + 1} {20 * n} 5005 20 0 263\n" for n in range(count)) + f"end {count} 0\n"
    def small():
        resource.setrlimit(resource.RLIMIT_FSIZE, (1000, 1000))
        resource.setrlimit(resource.RLIMIT_DATA, (5 * 10 ** 6, 5 * 10 ** 6))
    check("front door, --link, a long stream", "octets of its listing", len(listing) > 6 * 10 ** 6, True)
    expect_door("--link, a long stream in little memory", copy.list(book=WORKED * count, before=small), COMPLETE,
                listing.encode(), listing.encode())


def read_line(file):
    """One line, as soon as it is there."""
    line = b""
    while not line.endswith(b"\n"):
        if not select.select([file], [], [], HANGING)[0]:
            raise TimeoutError("no line comes")
        octet = os.read(file.fileno(), 1)
        if not octet:
            break
        line += octet
    return line


def start(*arguments, env=None, **how):
    how = {"stdin": subprocess.PIPE, "stdout": subprocess.PIPE, **how}
    return subprocess.Popen([str(part) for part in arguments], stderr=subprocess.PIPE, bufsize=0,
                            env={**os.environ, **(env or {})}, **how)


def at_once():
    """A command's line is there before the next octet is given; `end` when the input ends, and `stopped` before."""
    lines = STREAM_LISTING.splitlines(keepends=True)
    for command, env in (([LINK], {}), ([DOOR, "--link", "-"], {}), ([DOOR, "--link", "-"], {"POSIXLY_CORRECT": "1"})):
        started = start(*command, env=env)
        given = 0
        for n, length in enumerate(LENGTHS):
            started.stdin.write(STREAM[given:given + length])
            given += length
            check(f"{command[0].name}, at once, {env}", f"line {n + 1}", read_line(started.stdout), lines[n])
        output, _ = started.communicate(timeout=HANGING)
        check(f"{command[0].name}, at once, {env}", "status and end", (started.returncode, output), (0, lines[-1]))
    for command, status in (([LINK], 0), ([DOOR, "--link", "-"], STOPPED)):
        started = start(*command)
        started.stdin.write(WORKED + b"\1\0\x40\1")
        output = started.stdout.read()
        check(f"{command[0].name}, stopped while more may come", "status and output",
              (started.wait(HANGING), output), (status, b"1 0 5005 20 0 263\n2 20 stopped 7001 1\n"))
        started.communicate()


def inputs(folder):
    both("closed standard input", FAILED, b"", before=closed(0))
    both("a directory as standard input", FAILED, b"", stdin=os.open(folder, os.O_RDONLY))
    expect_door("--link, a missing file", run([DOOR, "--link", folder / "missing.nts"]), FAILED)
    name = "--link, a directory as FILE"
    expect_words(name, expect_door(name, run([DOOR, "--link", folder]), FAILED), "not a stream")
    expect_door("--link, an empty name as FILE", run([DOOR, "--link", ""]), FAILED)
    for arguments in ([], ["-", "-"], ["--"], ["-dash.nts"]):
        expect_door("--link " + " ".join(arguments), run([DOOR, "--link", *arguments], book=STREAM), USAGE)
    (folder / "-dash.nts").write_bytes(STREAM)
    expect_stream("--link -- -dash.nts", run([DOOR, "--link", "--", "-dash.nts"], cwd=folder))
    for number in (3, 5, 7):
        opened = ["bash", "-c", f'exec "$0" --link /dev/fd/{number} {number}<"$1"', DOOR, folder / "-dash.nts"]
        expect_stream(f"--link, a stream as /dev/fd/{number}", run(opened))
    copy = Imitation(folder / "reachable-link", LINK, "link")
    (copy.place / "private.nts").write_bytes(STREAM)
    (copy.place / "private.nts").chmod(0)
    private = copy.list("--link", copy.place / "private.nts", before=as_nobody)
    expect_door("--link, a stream without permission", private, FAILED)
    silent = run([DOOR, "--link", "-"], book=STREAM, before=closed(2))
    expect("front door, --link, no standard error", silent, COMPLETE, STREAM_LISTING, STREAM_LISTING)


def read_faults(shim):
    """The lines of the commands before the fault are there, and nothing else."""
    program = {"LD_PRELOAD": shim, "FAULT_EXE": os.path.realpath(LINK)}
    for after in (0, 305, len(STREAM)):
        env = {**program, "FAULT_READ_AFTER": str(after)}
        both(f"EIO after {after} octets", FAILED, lines_of(after), book=STREAM, env=env)
    env = {**program, "FAULT_INTERRUPT_AFTER": "160", "FAULT_PIECE": "160"}
    both("EINTR once after 160 octets", FAILED, lines_of(160), book=STREAM, env=env)
    by_octet = {**program, "FAULT_PIECE": "1"}
    both("reads and writes of one octet", COMPLETE, STREAM_LISTING, STREAM_LISTING, book=STREAM, env=by_octet)


def killed(shim):
    """In a read, and in a write, whose first part ends anywhere. Numbers before a missing line feed are passed on as
    they are, without one."""
    env = {"LD_PRELOAD": shim, "FAULT_EXE": os.path.realpath(LINK), "FAULT_SIGNAL": "9"}
    reading = {**env, "FAULT_PIECE": "160", "FAULT_KILL_READ_AFTER": "320"}
    expect("link, killed in the third read", run([LINK], book=STREAM, env=reading), -9, lines_of(320))
    killed_door = run([DOOR, "--link", "-"], book=STREAM, env=reading)
    expect_door("--link, killed in the third read", killed_door, FAILED, lines_of(320))
    for piece in (5, 11, len(LINES), len(STREAM_LISTING) - 1):
        writing = {**env, "FAULT_PIECE": "1", "FAULT_KILL_WRITE_AFTER": str(piece)}
        name = f"killed after {piece} octets of the listing"
        expect("link, " + name, run([LINK], book=STREAM, env=writing), -9, STREAM_LISTING[:piece])
        passed = re.match(rb"(\d+( \d+){5}\n)*(\d+( \d+){5}$)?", STREAM_LISTING[:piece]).group()
        expect_door(f"--link, {name}", run([DOOR, "--link", "-"], book=STREAM, env=writing), FAILED, passed)


def standing_writer(folder):
    """Two commands and a half, then nothing more, and a signal comes."""
    copy = Imitation(folder / "standing", LINK, "link")
    for number in (signal.SIGTERM, signal.SIGINT):
        place = folder / "temporary"
        place.mkdir()
        reading, writing = os.pipe()
        started = start(copy.door, "--link", "-", env={**copy.path, "TMPDIR": str(place)}, stdin=reading)
        os.write(writing, STREAM[:310])
        printed = read_line(started.stdout) + read_line(started.stdout)
        wait_until_empty(reading)
        os.close(reading)
        started.send_signal(number)
        output, messages = started.communicate(timeout=HANGING)
        name = f"--link, {number.name} while the writer stands still"
        check("front door, " + name, "status and output", (started.returncode, printed + output),
              (-number, lines_of(310)))
        expect_words(name, messages, "ended by " + number.name)
        check("front door, " + name, "what is left in the temporary folder", os.listdir(place), [])
        check("front door, " + name, "programs left running", running(copy.program), [])
        os.close(writing)
        shutil.rmtree(place)


def pour(stream):
    """Commands without end, until nobody reads them."""
    try:
        while True:
            stream.write(WORKED * 1000)
    except (BrokenPipeError, ValueError):
        return


def standing_and_leaving_readers(folder):
    """The reader takes ten octets of a listing without end, and then stands still until a signal comes, or leaves."""
    copy = Imitation(folder / "readers", LINK, "link")
    for name, number, status in (("SIGTERM while the reader stands still", signal.SIGTERM, -signal.SIGTERM),
                                 ("a reader that leaves", None, FAILED)):
        reading, writing = os.pipe()
        fcntl.fcntl(writing, fcntl.F_SETPIPE_SZ, 4096)
        started = start(copy.door, "--link", "-", env=copy.path, stdout=writing)
        os.close(writing)
        writer = threading.Thread(target=pour, args=(started.stdin,))
        writer.start()
        check(f"front door, --link, {name}", "the first octets", os.read(reading, 10), b"1 0 5005 2")
        if number:
            started.send_signal(number)
            started.wait(HANGING)
        os.close(reading)
        check(f"front door, --link, {name}", "status", started.wait(HANGING), status)
        writer.join(HANGING)
        check(f"front door, --link, {name}", "programs left running", running(copy.program), [])
        started.communicate()


def outputs(shim):
    cat = {"LD_PRELOAD": shim, "FAULT_EXE": os.path.realpath(shutil.which("cat"))}
    with open("/dev/full", "wb") as full:
        both("a full output", FAILED, b"", book=STREAM, stdout=full)
        both("a full output, no command", FAILED, b"", book=b"", stdout=full)
    both("a closed output", FAILED, b"", book=STREAM, before=closed(1), stdout=subprocess.DEVNULL)
    gone, writing = os.pipe()
    os.close(gone)
    for before in (None, lambda: signal.signal(signal.SIGPIPE, signal.SIG_IGN)):
        for book in (STREAM, b""):
            result = run([DOOR, "--link", "-"], book=book, stdout=writing, before=before)
            expect_door("--link, a pipe without reader", result, FAILED)
    os.close(writing)
    def printing(name, book, output, **faults):
        expect_door(f"--link, {name}", run([DOOR, "--link", "-"], book=book, env={**cat, **faults}), FAILED, output)
    for room in (0, 5, 12, len(LINES) - 1):
        printing(f"room for {room} octets", STREAM, LINES[:room], FAULT_WRITE_AFTER=str(room))
    for room in (0, 3, len(EMPTY) - 1):
        printing(f"room for {room} octets of the last line", b"", EMPTY[:room], FAULT_WRITE_AFTER=str(room))
    printing("an output that is full at its close", STREAM, LINES, FAULT_CLOSE="1")
    printing("killed while printing", STREAM, LINES[:60], FAULT_PIECE="1", FAULT_KILL_WRITE_AFTER="60",
             FAULT_SIGNAL="9")


def lost_lines_of_a_live_stream(folder):
    """A line that cannot be written, or that sed loses, ends the listing, though the input goes on."""
    copy = Imitation(folder / "lost", LINK, "link")
    def lost(name, stdout):
        started = start(copy.door, "--link", "-", env=copy.path, stdout=stdout)
        started.stdin.write(WORKED)
        check("front door, --link, " + name, "status", started.wait(HANGING), FAILED)
        check("front door, --link, " + name, "programs left running", running(copy.program), [])
        output, _ = started.communicate()
        check("front door, --link, " + name, "output", output or b"", b"")
    with open("/dev/full", "wb") as full:
        lost("a full output while more may come", full)
    script(copy.place / "path/sed", "read line; exit 1")
    lost("sed fails while more may come", subprocess.PIPE)


def judgements(folder):
    """What the front door makes of a program that prints this."""
    judged = Imitation(folder / "judged-link", name="link")
    line, end = b"1 0 5005 20 0 263\n", b"end 1 0\n"
    cases = [
        ("a whole listing", line + end, "", COMPLETE, line + end),
        ("a whole listing, status 1", line + end, "exit 1", FAILED, line),
        ("a whole listing, and is killed", line + end, "kill -KILL $$", FAILED, line),
        ("`cut`", line + b"2 20 cut\n", "", CUT, line + b"2 20 cut\n"),
        ("`cut`, and is killed", line + b"2 20 cut\n", "kill -KILL $$", FAILED, line),
        ("`stopped`", b"1 0 stopped 7001 1\n", "", STOPPED, b"1 0 stopped 7001 1\n"),
        ("`stopped` without number", b"1 0 stopped\n", "", FAILED, b""),
        ("`end` before a line", end + line, "", FAILED, b""),
        ("`end` twice", line + end + end, "", FAILED, line),
        ("`end` without line feed", line + end[:-1], "", FAILED, line),
        ("`end` with one count", line + b"end 1\n", "", FAILED, line),
        ("a head", b"NTB 1\n" + line + end, "", FAILED, b""),
        ("an empty line", line + b"\n" + end, "", FAILED, line),
        ("lines alone", line, "", FAILED, line),
        ("nothing", b"", "", FAILED, b""),
        ("a line without end", line + b"x" * 200000, "", FAILED, line),
        ("lines without end", line + b"x\n" * 200000, "", FAILED, line),
    ]
    for name, text, then, wanted, output in cases:
        (judged.place / "text").write_bytes(text)
        script(judged.program, f"cat '{judged.place}/text'\n{then}")
        judged.vouch()
        expect_door("--link, a program that prints " + name, judged.list(), wanted, output, line + end)


def exchanged(folder):
    """Before its start, while it lists, and before it has ended: the last line is not passed on."""
    door = Imitation(folder / "exchanged-link", LINK, "link")
    door.program.write_bytes(LINK.read_bytes() + b"\0")
    refused("--link, a patched program, and rt fails", door.list(), "is not the one that was proved", str(door.log))
    kept = door.place / "kept"
    shutil.copy(LINK, kept)
    for name, change in (("the program is exchanged", f"cp '{kept}' '{kept}.new'; mv '{kept}.new' '{door.program}'"),
                         ("the sources are edited", f"echo >>'{door.source}'")):
        for text in (f"{change}\nexec '{kept}'", f"'{kept}'\n{change}"):
            script(door.program, text)
            door.vouch()
            name_of_case = f"--link, {name} while the stream is listed"
            messages = expect_door(name_of_case, door.list(), NOT_BUILT, LINES)
            expect_words(name_of_case, messages, "changed while the stream was listed")


def built_anew_meanwhile(folder):
    """While the program lists, the sources are edited, and another start builds the program anew."""
    door = Imitation(folder / "anew", name="link")
    door.rt(proves(LINK, "link"))
    again = f"'{door.door}' --link '{ROOT}/streams/worked.nts' >'{door.place}/again' 2>&1"
    script(door.program, f"echo >>'{door.source}'\n{again}\nexec '{LINK}'")
    door.vouch()
    name = "--link, the program is built anew while the stream is listed"
    expect_words(name, expect_door(name, door.list(), NOT_BUILT, LINES), "built anew")
    check("front door, " + name, "the other listing", (door.place / "again").read_bytes().endswith(b"end 1 0\n"), True)


def builds(folder):
    """Each program is proved when it is asked for, and tried."""
    door = Imitation(folder / "two-programs", PROGRAM)
    door.rt(f"[ $crate = link ] || exit 1\n{proves(LINK, 'link')}")
    link = ["--link", ROOT / "streams/sample.nts"]
    messages = expect("front door, --link, first use", door.list(*link), COMPLETE, STREAM_LISTING, STREAM_LISTING)
    expect_words("--link, first use", messages, "takes minutes", "link ")
    door.rt("exit 1")
    expect_stream("--link, built already", door.list(*link))
    expect_sample("a book, after a stream", door.list("-", book=SAMPLE))
    check("front door, --link, first use", "checks asked for", door.asked(), 1)
    reader = folder / "short-link"
    subprocess.run(["gcc", "-Wall", "-Wextra", "-DLIMIT=65537", f'-DPROGRAM="{LINK}"', "-o", reader,
                    ROOT / "tests/short_reader.c"], check=True)
    script(folder / "deaf-link", f"cat 2>/dev/null | '{LINK}'")
    for name, program, words in (("reads 65,537 octets", reader, "in pieces"),
                                 ("lists a failed read", folder / "deaf-link", "input cannot be read")):
        door = Imitation(folder / ("new-link-" + name.replace(" ", "-")), name="link")
        door.rt(proves(program, "link"))
        refused(f"--link, a new program that {name}", door.list(), words, str(door.log))
        check(f"front door, --link, a new program that {name}", "it is removed", door.program.exists(), False)
    (door.place / "lacking").mkdir()
    for tool in ("cat", "bash"):
        (door.place / "lacking" / tool).symlink_to(shutil.which(tool))
    refused("--link without sed on the path", door.list(env={"PATH": str(door.place / "lacking")}), "sed is needed")


def without_writer(folder):
    """A signal while the stream, a pipe with a name, has no writer yet."""
    os.mkfifo(folder / "stream")
    started = start(DOOR, "--link", folder / "stream")
    wait_for(lambda: catches(started.pid, signal.SIGTERM))
    started.send_signal(signal.SIGTERM)
    _, messages = started.communicate(timeout=HANGING)
    expect_words("--link, SIGTERM while a stream has no writer yet", messages, "ended by SIGTERM")


def try_all(folder, shim):
    streams()
    lengths()
    longer_than_memory(folder)
    at_once()
    inputs(folder)
    read_faults(shim)
    killed(shim)
    standing_writer(folder)
    standing_and_leaving_readers(folder)
    outputs(shim)
    lost_lines_of_a_live_stream(folder)
    judgements(folder)
    exchanged(folder)
    built_anew_meanwhile(folder)
    builds(folder)
    without_writer(folder)
