"""What the front door makes of a program that is not the proved one, of a build that fails, and of its environment.

rt is a stand-in here (fault_tools.Imitation), so that a build takes no time; the program is the proved one or a wrong
one.
"""
import fcntl
import os
import pathlib
import shutil
import signal
import subprocess
import threading
import time

from fault_tools import (COMPLETE, DOOR, FAILED, HANGING, Imitation, KIT, LINK, NOT_BUILT, PROGRAM, ROOT, SAMPLE,
                         SAMPLE_LISTING, USAGE, as_nobody, check, closed, expect, expect_door, expect_sample,
                         expect_words, has_end_line, longest_book, run, script, sha256)

STAMP = "3" * 64
PROVED = "echo logic=proved functions=2"
SOURCE = "crates/book/src/lib.rt"
OWN_TOOLS = "cat env find grep mktemp python3 readlink rm rt sha256sum sort tail xargs".split()
GIT_IDENTITY = ["-c", "user.name=test", "-c", "user.email=test"]
BUILD_TOOLS = "cmp flock head mkdir mv sh sleep timeout".split()


def copies(program=PROGRAM, name="verdicts"):
    """A build that leaves this program."""
    return f"'{shutil.which('cp')}' '{program}' crates/{name}/out/{name}"


def stamps(program=PROGRAM, name="verdicts"):
    """A build that leaves the stamp for this program."""
    return f"printf %s {STAMP}{sha256(program.read_bytes())} >crates/{name}/out/{name}.stamp"


def runs(name="verdicts"):
    """What rt says when it has proved and built."""
    return f"{{ {PROVED}; echo linked files=out/{name}.o; echo 'rt: running out/{name}; for other input, run it'; }}"


def proves(program=PROGRAM, name="verdicts"):
    """A check that builds this program, and runs it."""
    return f"echo of rt\n{copies(program, name)} && {stamps(program, name)} && {runs(name)} && echo not a book"


def built(name, door, *words, **how):
    """The sample is listed after one check, and these words are said."""
    before = door.asked()
    messages = expect("front door, " + name, door.list(**how), COMPLETE, SAMPLE_LISTING, SAMPLE_LISTING)
    check("front door, " + name, "checks asked for", door.asked() - before, 1)
    expect_words(name, messages, *words)
    return messages


def refused(name, result, *words):
    """Status 4, nothing printed, and these words are said."""
    expect_words(name, expect_door(name, result, NOT_BUILT), *words)


def first_use(folder):
    door = Imitation(folder / "first")
    refused("rt fails, no program", door.list(), "not proved", str(door.log))
    door.rt(f"echo why\n{proves()}\nexit 1")
    refused("rt builds a program and fails", door.list(), str(door.log))
    check("front door, rt fails", "the log has why", "why" in door.log.read_text(), True)
    door.rt("exit 1")
    refused("the program of that failed check is not used", door.list())
    door.rt(proves())
    messages = built("first use", door, "takes minutes", str(door.log), KIT, sha256(PROGRAM.read_bytes()))
    check("front door, first use", "lines of messages", messages.count(b"\n"), 2)
    check("front door, first use", "the checker's lines are in the log", "of rt" in door.log.read_text(), True)
    door.rt("exit 1")
    expect_sample("built already: rt is not asked for a check", door.list())
    door.program.unlink()
    door.rt(f"cat >/dev/null\n{proves()}")
    built("rt reads its standard input", door)
    door.program.unlink()
    silent = door.list(before=closed(2))
    expect("front door, a build without standard error", silent, COMPLETE, SAMPLE_LISTING, SAMPLE_LISTING)


def incomplete_checks(folder):
    """rt passes, and what it leaves does not bear it out."""
    cases = [
        ("leaves no program", f"{stamps()}; {runs()}", "left no program"),
        ("leaves no stamp", f"{copies()}; {runs()}", "left no program"),
        ("leaves an empty stamp", f"{copies()}; : >crates/verdicts/out/verdicts.stamp; {runs()}", "left no program"),
        ("leaves the stamp of another program", f"{copies()}; {stamps(LINK)}; {runs()}", "left no program"),
        ("does not say so", f"{copies()}; {stamps()}", "disk full"),
        ("says only that it proved", f"{copies()}; {stamps()}; {PROVED}", "disk full"),
        ("says only that it runs the program", f"{copies()}; {stamps()}; {runs()} | grep -v logic=", "disk full"),
        ("says that the program is not proved", f"{copies()}; {stamps()}; {runs()} | sed s/=proved/=not-proved/",
         "disk full"),
        ("says that it proved before it says that it did not",
         f"{copies()}; {stamps()}; {PROVED}; {runs()} | sed s/=proved/=not-proved/", "disk full"),
        ("runs another program", f"{copies()}; {stamps()}; {runs('link')}", "disk full"),
        ("has its sources edited", f"{proves()}; echo edited >>crates/book/src/lib.rt", "changed during the check"),
        ("has its list of crates edited", f"{proves()}; echo >>crates.txt", "changed during the check"),
        ("has its sources edited and put back with their times",
         f"cp -p {SOURCE} target/kept; echo edited >{SOURCE}; {proves()}; cp -p target/kept {SOURCE}",
         "sources changed during the check"),
        ("has a file among its sources for a while", f"echo >crates/more.rt; {proves()}; rm crates/more.rt",
         "sources changed during the check"),
        # The stand-in for sort, with which sources are hashed, exchanges the program before the trial of it.
        ("has its program exchanged at once", f"{proves()}; cp path/exchange path/sort", "changed after the check"),
        # The stand-in for timeout, with which a new program is tried, exchanges it once.
        ("has its program exchanged", f"{proves()}; cp path/exchange path/timeout", "changed after the check"),
        ("leaves no room for the record", f"{proves()}; mkdir target/door/record.verdicts.new",
         "record.verdicts cannot be written"),
        ("leaves no room for hashes", f"{proves()}; mkdir target/door/libraries.new", "libraries cannot be written"),
    ]
    for number, (name, rt, words) in enumerate(cases):
        door = Imitation(folder / f"incomplete{number}", PROGRAM)
        door.source.write_text("changed\n")
        script(door.place / "path/exchange", f"rm \"$0\"; echo >>'{door.program}'\n"
               f"exec '{os.path.dirname(shutil.which('sort'))}'/${{0##*/}} \"$@\"")
        door.rt(rt)
        refused(f"rt passes and {name}", door.list(), words)
        door.rt("exit 1")
        refused(f"rt passes and {name}: a second start", door.list())


def other_programs(folder):
    """The record fits what is here, but for one thing. Times are as they were, or long past."""
    # 5005 is the number of each refusal for a missing AVP, and stands in lines of the sample's listing. With 5004 in
    # its place the program runs, and that listing is wrong.
    patched = PROGRAM.read_bytes().replace((5005).to_bytes(4, "little"), (5004).to_bytes(4, "little"))
    wrong_program = folder / "wrong"
    wrong_program.write_bytes(patched)
    wrong_program.chmod(0o755)
    status, listing, _ = run([wrong_program], book=SAMPLE)
    check("a program that is patched", "status, an `end` line and the sample's listing",
          (status, has_end_line(listing), listing == SAMPLE_LISTING), (0, True, False))
    wrong = "is not the one that was proved"
    for name, content in (("patched", patched), ("cut short", PROGRAM.read_bytes()[:5000]), ("empty", b""),
                          ("built elsewhere", b"#!/bin/sh\nprintf 'NTB 1\\nend 0 0\\n'\n")):
        door = Imitation(folder / name.replace(" ", "-"), PROGRAM)
        exchange(door, content)
        refused(f"a program that is {name}, and rt fails", door.list(), wrong, str(door.log))
        shutil.copy(PROGRAM, door.program)
        door.vouch()
        exchange(door, content)
        door.rt(proves())
        built(f"a program that is {name}", door, wrong)
    door = Imitation(folder / "planted")
    shutil.copy(PROGRAM, door.program)
    door.stamp.write_text(STAMP + sha256(PROGRAM.read_bytes()))
    refused("a program and a stamp without a record", door.list(), "no check from here")
    check("front door, a program and a stamp without a record", "checks asked for", door.asked(), 1)


def exchanged_while_listing(folder):
    """Between its compare and the end of the listing: the program lists, and puts another in its own place."""
    door = Imitation(folder / "swapped")
    new, kept = door.place / "new", door.place / "kept"
    shutil.copy(PROGRAM, kept)
    for name, change in (("the program is exchanged", f"cp '{kept}' '{new}'; mv '{new}' '{door.program}'"),
                         ("the sources are edited", f"echo >>'{door.source}'"),
                         ("the record is removed", f"rm '{door.record}'")):
        script(door.program, f"{change}\nexec '{kept}'")
        door.vouch()
        refused(name + " while the book is listed", door.list(), "changed while the book was listed")
    check("front door, an exchange while the book is listed", "checks asked for", door.asked(), 0)


def exchange(door, content):
    """The program's content, and no time that would tell."""
    times = door.program.stat()
    door.program.write_bytes(content)
    os.utime(door.program, ns=(times.st_atime_ns, times.st_mtime_ns))
    for path in (door.source, *door.source.parents[:3], door.place / "crates.txt"):
        os.utime(path, (0, 0))


def other_origins(folder):
    """Sources, list of crates or kit are not those of the record; or only their times are others."""
    def edit(door, path, text):
        path.write_text(text)
        os.utime(path, (0, 0))
    cases = [
        ("sources put back with old times", lambda d: edit(d, d.source, "older\n"), "crates/"),
        ("a file of sources more", lambda d: edit(d, d.source.with_name("more.rt"), ""), "crates/"),
        ("a file of sources renamed", lambda d: d.source.rename(d.source.with_name("renamed.rt")), "crates/"),
        ("a file of sources less", lambda d: d.source.unlink(), "crates/"),
        ("another list of crates", lambda d: edit(d, d.place / "crates.txt", "\n"), "crates.txt"),
        ("another kit", lambda d: d.record.write_text(d.record.read_text().replace(KIT, "older")), "another kit"),
        ("a damaged record", lambda d: d.record.write_text("damaged\n"), "damaged"),
        ("an empty record", lambda d: d.record.write_text(""), "damaged"),
        ("no record", lambda d: d.record.unlink(), "no check from here"),
        ("a program without permission to run", lambda d: d.program.chmod(0o644), "may not be executed"),
    ]
    for number, (name, change, words) in enumerate(cases):
        door = Imitation(folder / f"origin{number}", PROGRAM)
        change(door)
        door.rt("exit 1")
        refused(name + ", and rt fails", door.list(), words)
        check("front door, " + name, "checks asked for", door.asked(), 1)
    door = Imitation(folder / "origin", PROGRAM)
    edit(door, door.source, "edited\n")
    door.rt(proves())
    built("edited sources", door, "crates/")
    door.rt("exit 1")
    expect_sample("edited sources, once proved", door.list())
    door = Imitation(folder / "times", PROGRAM)
    for name, when in (("the future", time.time() + 10 ** 8), ("the past", 0), ("now", time.time())):
        for path in (door.source, door.place / "crates", door.place / "crates.txt"):
            os.utime(path, (when, when))
        expect_sample("sources with times of " + name, door.list())
    (door.place / "crates/other").symlink_to(PROGRAM)
    refused("a link among the sources", door.list(), "neither file nor folder")
    (door.place / "crates/other").unlink()
    (door.place / "crates/link/out").rmdir()
    (door.place / "crates/link/out").symlink_to(door.place / "crates/book/out")
    refused("a link in the place of an out/", door.list(), "neither file nor folder")


def libraries(folder):
    """rt takes a library with a fitting stamp, and what a check kept, as they are, so what the record does not vouch for
    is removed first, and all that is kept of the program."""
    library = "crates/book/out/rlib/book.rlib/code"
    rebuilt = {library, "crates/book/out/rlib/stamp", "crates/book/out/incremental/kept"}
    def seen(name, change, kept):
        door = Imitation(folder / ("library-" + name.replace(" ", "-")), PROGRAM)
        (door.place / "crates/verdicts/out/incremental").mkdir()
        (door.place / "crates/verdicts/out/verdicts.o").write_text("")
        change(door)
        door.program.unlink(missing_ok=True)
        door.rt("find crates -path '*/out/*' -type f >target/seen; find crates/verdicts/out >>target/seen; exit 1")
        refused("a library, " + name, door.list())
        left = set((door.place / "target/seen").read_text().splitlines())
        check("front door, a library, " + name, "left for rt", left,
              (rebuilt if kept else set()) | {"crates/verdicts/out"})
    def edited_meanwhile(door):
        door.source.write_text("edited\n")
        door.rt(f"echo of an edited source >{library}; echo >>crates/book/src/lib.rt; exit 1")
        door.list()
    def made_in_vain(door):
        door.program.unlink()
        door.rt(f"echo of a new library >{library}; exit 1")
        door.list()
    def patch(part):
        return lambda door: (door.place / "crates/book/out" / part).write_text("patched\n")
    seen("as recorded", lambda door: None, True)
    seen("patched", patch("rlib/book.rlib/code"), False)
    seen("with another stamp", patch("rlib/stamp"), False)
    seen("without its stamp", lambda door: (door.place / "crates/book/out/rlib/stamp").unlink(), False)
    seen("with other kept work", patch("incremental/kept"), False)
    seen("with kept work more", patch("incremental/more"), False)
    seen("without a record of it", lambda door: door.libraries.unlink(), False)
    seen("made by a check that failed", made_in_vain, True)
    seen("after a check with its source edited meanwhile", edited_meanwhile, False)


def pieces_after_build(folder):
    """A program that takes so many octets for the whole input lists a slow book wrongly, and is refused."""
    for limit, stops in ((1, True), (100, True), (60000, True), (65535, True), (65536, True), (65537, False)):
        door = Imitation(folder / f"pieces{limit}")
        reader = door.place / "reader"
        subprocess.run(["gcc", "-Wall", "-Wextra", f"-DLIMIT={limit}", f'-DPROGRAM="{PROGRAM}"', "-o", reader,
                        ROOT / "tests/short_reader.c"], check=True)
        door.rt(proves(reader))
        name = f"a program that reads up to {limit} octets"
        if stops:
            refused(name, door.list(), "in pieces", str(door.log))
            check("front door, " + name, "the program is removed", door.program.exists(), False)
        else:
            built(name, door)
    for name, content in (("empty", ""), ("broken", "\x7fELF"), ("silent", "#!/bin/sh\ncat >/dev/null\n")):
        door = Imitation(folder / ("new-" + name))
        (door.place / "new").write_text(content)
        (door.place / "new").chmod(0o755)
        door.rt(proves(door.place / "new"))
        refused(f"a new program that is {name}", door.list(), "in pieces")


def failing_read_after_build(folder):
    """A program that takes a failed read for the end of its input is refused."""
    door = Imitation(folder / "failing-read")
    script(door.place / "new", f"cat 2>/dev/null | '{PROGRAM}'")
    door.rt(proves(door.place / "new"))
    name = "a program that lists a failed read"
    refused(name, door.list(), "input cannot be read", str(door.log))
    check("front door, " + name, "the program is removed", door.program.exists(), False)


def children_of_rt(folder):
    """A child that rt leaves, passing or killed, is ended with it, and does not hold the lock."""
    leaves = "sleep 1000 & echo $! >target/left"
    for name, rt, status in (("passes", proves(), COMPLETE), ("is killed", "kill -KILL $$", NOT_BUILT)):
        door = Imitation(folder / ("left-by-rt-that-" + name.replace(" ", "-")))
        door.rt(f"{leaves}\n{rt}")
        got, _, _ = door.list()
        check(f"front door, rt leaves a child and {name}", "status", got, status)
        left = (door.place / "target/left").read_text().strip()
        ended = ends(left)
        check(f"front door, rt leaves a child and {name}", "the child is ended", ended, True)
        if not ended:
            os.kill(int(left), signal.SIGKILL)
        door.rt(proves())
        door.program.unlink(missing_ok=True)
        messages = built(f"a build after rt that {name} and left a child", door)
        check(f"front door, a build after rt that {name}", "waiting for the lock", b"waiting" in messages, False)


def ends(process):
    """Within two seconds: what was sent SIGKILL may take a moment."""
    until = time.monotonic() + 2
    while is_running(process) and time.monotonic() < until:
        time.sleep(0.01)
    return not is_running(process)


def signals(folder):
    """During the build: nothing is left running, a line is said, and the status is the signal's."""
    for number in (signal.SIGTERM, signal.SIGINT, signal.SIGHUP, signal.SIGQUIT):
        door = Imitation(folder / f"signal{int(number)}")
        (door.place / "tmp").mkdir()
        door.rt("sleep 1000 & echo $$ $! >target/started.new; mv target/started.new target/started; sleep 1001")
        started = start(door, TMPDIR=str(door.place / "tmp"))
        wait_for(lambda: (door.place / "target/started").exists())
        started.send_signal(number)
        output, messages = started.communicate(timeout=HANGING)
        name = f"{number.name} during the build"
        check("front door, " + name, "status", shell_status(started.returncode), 128 + number)
        check("front door, " + name, "output", output, b"")
        expect_words(name, messages, "ended by " + number.name)
        for process in (door.place / "target/started").read_text().split():
            ended = ends(process)
            check("front door, " + name, "left running", not ended, False)
            if not ended:
                os.kill(int(process), signal.SIGKILL)
        check("front door, " + name, "what is left in the temporary folder", os.listdir(door.place / "tmp"), [])
    door.rt(proves())
    built("a build after one that a signal ended", door)
    os.mkfifo(folder / "fifo")
    started = subprocess.Popen([door.door, folder / "fifo"], stderr=subprocess.PIPE, env={**os.environ, **door.path})
    wait_for(lambda: catches(started.pid, signal.SIGTERM))
    started.send_signal(signal.SIGTERM)
    _, messages = started.communicate(timeout=HANGING)
    expect_words("SIGTERM while a book has no writer yet", messages, "ended by SIGTERM")
    removing = Imitation(folder / "removing")
    script(removing.place / "path/rm", f"case $* in *record*) : >'{removing.place}/started'; sleep 1 ;; esac\n"
           f"exec '{shutil.which('rm')}' \"$@\"")
    started = start(removing)
    wait_for(lambda: (removing.place / "started").exists())
    started.send_signal(signal.SIGTERM)
    _, messages = started.communicate(timeout=HANGING)
    expect_words("SIGTERM before the build", messages, "ended by SIGTERM")


def start(door, **env):
    return subprocess.Popen([door.door, "-"], stdin=subprocess.PIPE, stdout=subprocess.PIPE, stderr=subprocess.PIPE,
                            env={**os.environ, **door.path, **env})


def shell_status(status):
    """As a shell shows it: 128 + n for signal n."""
    return status if status >= 0 else 128 - status


def is_running(process):
    try:
        return pathlib.Path(f"/proc/{process}/stat").read_text().rpartition(")")[2].split()[0] != "Z"
    except FileNotFoundError:
        return False


def catches(process, number):
    """Whether the process has a handler for this signal."""
    status = pathlib.Path(f"/proc/{process}/status").read_text()
    return int(status.partition("SigCgt:")[2].split()[0], 16) >> (number - 1) & 1 == 1


def wait_for(condition):
    began = time.monotonic()
    while not condition():
        time.sleep(0.01)
        if time.monotonic() - began > HANGING:
            raise TimeoutError("what was waited for did not come")


def standing_reader(folder):
    """A signal while the listing, longer than the pipe, waits for its reader."""
    (folder / "longest.ntb").write_bytes(longest_book()[0])
    reading, writing = os.pipe()
    fcntl.fcntl(writing, fcntl.F_SETPIPE_SZ, 4096)
    started = subprocess.Popen([DOOR, folder / "longest.ntb"], stdout=writing, stderr=subprocess.PIPE)
    os.close(writing)
    os.read(reading, 10)
    started.send_signal(signal.SIGTERM)
    try:
        check("front door, SIGTERM while the reader stands still", "status", started.wait(10), -signal.SIGTERM)
    except subprocess.TimeoutExpired:
        check("front door, SIGTERM while the reader stands still", "it ends", False, True)
    os.close(reading)
    started.communicate(timeout=HANGING)


def two_at_once(folder):
    """The check lasts until the second start waits (or for ten seconds, where it does not). What is in target/ may be
    removed meanwhile."""
    for name, meanwhile in (("two first uses at once", ":"), ("a lock file that is removed", "rm -f target/door/lock")):
        door = Imitation(folder / ("twice-" + name.replace(" ", "-")))
        said = door.place / "said"
        said.write_text("")
        waits = f"n=0; until grep -q waiting '{said}' || [ $n = 100 ]; do sleep 0.1; n=$((n + 1)); done"
        door.rt(f"{meanwhile}\n: >target/started\n{waits}\n{proves()}")
        results = []
        first = threading.Thread(target=lambda: results.append(door.list()))
        first.start()
        wait_for(lambda: (door.place / "target/started").exists())
        with open(said, "wb") as messages:
            second = subprocess.run([door.door, ROOT / "books/sample.ntb"], stdout=subprocess.PIPE, stderr=messages,
                                    env={**os.environ, **door.path}, timeout=HANGING)
        first.join()
        results.append((second.returncode, second.stdout, said.read_bytes()))
        for result in results:
            expect("front door, " + name, result, COMPLETE, SAMPLE_LISTING, SAMPLE_LISTING)
        expect_words(name, said.read_bytes(), "another start is building the program: waiting")
        check("front door, " + name, "checks asked for", door.asked(), 1)


def read_only(folder):
    door = Imitation(folder / "read-only", PROGRAM)
    expect_sample("a read-only checkout, proved", door.list(before=as_nobody))
    door.program.unlink()
    door.rt(proves())
    if os.getuid() == 0:
        refused("a read-only checkout, not built", door.list(before=as_nobody), "cannot be written", "copy the")
        for part in ("target", "target/door"):
            (door.place / part).chmod(0o777)
        door.program.write_bytes(b"")
        refused("a program that cannot be removed", door.list(before=as_nobody), "cannot be written")
        check("front door, a read-only checkout", "checks asked for", door.asked(), 0)
    door = Imitation(folder / "file")
    shutil.rmtree(door.place / "target")
    (door.place / "target").write_text("")
    refused("a file in the place of target/", door.list(), "cannot be written")


def tools(folder):
    """A path that lacks a tool, with the program built, and with the program to be built."""
    door = Imitation(folder / "tools", PROGRAM)
    path = door.place / "lacking"
    path.mkdir()
    for tool in {*OWN_TOOLS, *BUILD_TOOLS} - {"rt"}:
        (path / tool).symlink_to(shutil.which(tool))
    (path / "rt").symlink_to(door.place / "path/rt")
    env = {"PATH": str(path)}
    expect_sample("a path with these tools alone", door.list(env=env))
    def without(tool, name):
        (path / tool).rename(path / "away")
        refused(f"{name} without {tool} on the path", door.list(env=env), f"{tool} is needed and not on the path")
        (path / "away").rename(path / tool)
    for tool in OWN_TOOLS:
        without(tool, "a listing")
    refused("an empty path", run([door.door, "-"], book=SAMPLE, env={"PATH": ""}), "not on the path")
    door.program.unlink()
    for tool in BUILD_TOOLS:
        without(tool, "a build")
    check("front door, a path that lacks a tool", "checks asked for", door.asked(), 0)
    door.rt(proves())
    built("a build with these tools alone", door, env=env)


def functions(body, *names):
    """Functions that bash takes from its environment."""
    return {f"BASH_FUNC_{name}%%": "() { " + body + "; }" for name in names}


def environment(folder):
    """Nothing in the environment switches the script off, or comes to rt."""
    door = Imitation(folder / "environment", PROGRAM)
    script(door.place / "startup", "exit 0")
    startup = str(door.place / "startup")
    environments = [
        {"SHELLOPTS": "noexec"}, {"SHELLOPTS": "errexit:noglob:nounset:posix:verbose"}, {"BASH_ENV": startup},
        {"ENV": startup}, {"POSIXLY_CORRECT": "1"}, {"IFS": "0123456789/abcdefghijklmnopqrstuvwxyz"}, {"CDPATH": "/"},
        {"BASHOPTS": "failglob:expand_aliases:nocasematch"}, {"GLOBIGNORE": "*"}, {"LC_ALL": "C.UTF-8"},
        *({"FUNCNEST": str(depth)} for depth in range(1, 8)), {"BASH_COMPAT": "31"},
        functions("exit 0", "cat", "exec", "exit", "printf", "set", "unset", "trap", "wait", "type", "local", "["),
        functions("true", "rm", "tail", "read", "mktemp", "sha256sum", "find", "give_up", "judge"),
    ]
    for env in environments:
        expect_sample("an environment with " + ", ".join(f"{name}={env[name]}" for name in env), door.list(env=env))
    other = Imitation(folder / "other-checkout")
    script(other.program, "printf 'NTB 1\\nend 0 0\\n'")
    other.vouch()
    for name in ("BASH_SOURCE", "BASH_ARGV0", "0"):
        expect_sample(f"another checkout in {name}", door.list(env={name: str(other.door)}))
    door.program.unlink()
    door.rt(f"env >target/environment\n{proves()}")
    built("a build in a strange environment", door, env={**environments[0], **environments[-1], "STRANGE": "1"})
    names = {line.partition("=")[0] for line in (door.place / "target/environment").read_text().splitlines()}
    check("front door, a build in a strange environment", "variables of rt", names - {"PWD", "OLDPWD", "SHLVL", "_"},
          {"PATH", "HOME", "TMPDIR", "GIT_OPTIONAL_LOCKS", "LC_ALL"})


def shells(folder):
    """The script handed to a shell by name, or called by a link."""
    door = Imitation(folder / "shells", PROGRAM)
    book = ROOT / "books/sample.ntb"
    for shell in (["sh"], ["dash"], ["bash"], ["bash", "--posix"]):
        if shutil.which(shell[0]):
            expect_sample("called by " + " ".join(shell), run([*shell, door.door, book], env=door.path))
            expect_sample("called from its folder by " + " ".join(shell),
                          run([*shell, "verdicts", book], env=door.path, cwd=door.place))
    env = {**door.path, **functions("exit 0", "exec", "command", "builtin", "printf")}
    expect_sample("called by bash with functions of the environment", run(["bash", door.door, book], env=env))
    status, output, _ = run(["bash", door.door, book], env={**door.path, "SHELLOPTS": "noexec"})
    check("front door, called by bash under noexec", "another status than 0", status != 0, True)
    check("front door, called by bash under noexec", "output", output, b"")
    env = {"PATH": f"{door.place}:{door.path['PATH']}"}
    refused("found on the path by bash", run(["bash", "verdicts", book], env=env, cwd=folder), "call it by its path")
    (door.place / "link").symlink_to(door.door)
    expect_sample("called by a link", run([door.place / "link", book], env=door.path))


def no_listing_file(folder):
    door = Imitation(folder / "unlisted", PROGRAM)
    (door.place / "made/listing").mkdir(parents=True)
    script(door.place / "path/mktemp", f"echo '{door.place}/made'")
    name = "a listing file that cannot be made"
    expect_words(name, expect_door(name, door.list(), FAILED), "no file for the listing", "TMPDIR")


def arguments(folder):
    (folder / "-dash.ntb").write_bytes(SAMPLE)
    (folder / "--help").write_bytes(SAMPLE)
    name = "a name that begins with a dash"
    expect_words(name, expect_door(name, run([DOOR, "-dash.ntb"], cwd=folder), USAGE), "./verdicts -- -dash.ntb")
    expect_sample(name + ", after --", run([DOOR, "--", "-dash.ntb"], cwd=folder))
    expect_sample("--help after --", run([DOOR, "--", "--help"], cwd=folder))
    expect_sample("- after --", run([DOOR, "--", "-"], book=SAMPLE))
    expect_sample("an ordinary name after --", run([DOOR, "--", ROOT / "books/sample.ntb"]))
    for arguments in (["--"], ["--", "-", "-"], ["-", "--"], ["--version", "-"], ["--help", "-"]):
        expect_door("arguments " + " ".join(arguments), run([DOOR, *arguments], book=SAMPLE), USAGE)
    alone = folder / "alone"
    alone.mkdir()
    shutil.copy(DOOR, alone / "verdicts")
    refused("a script without its checkout", run([alone / "verdicts", "-"], book=SAMPLE), "whole checkout")


def numbered_books(folder):
    """A book as /dev/fd/N, whatever numbers the script uses itself; and a number that is not open."""
    book = folder / "numbered.ntb"
    book.write_bytes(SAMPLE)
    for number in (0, 2, 3, 4, 5, 9, 10, 11, 63):
        opened = ["bash", "-c", f'exec "$0" /dev/fd/{number} {number}<"$1"', DOOR, book]
        expect_sample(f"a book as /dev/fd/{number}", run(opened))
    for number in (3, 4, 5, 9, 10, 11, 12, 63):
        unopened = ["bash", "-c", f'exec "$0" /dev/fd/{number} 2<>"$1"', DOOR, book]
        expect(f"front door, /dev/fd/{number}, which is not open", run(unopened), FAILED, b"")
        book.write_bytes(SAMPLE)


def version(folder):
    door = Imitation(folder / "version", PROGRAM)
    proved = f"kit {KIT}, program {sha256(PROGRAM.read_bytes())}"
    def expect_version(name, text, link="not built", **how):
        status, output, messages = door.list("--version", **how)
        check("front door, --version, " + name, "status, text and messages", (status, output.decode(), messages),
              (COMPLETE, f"{text}, link {link}\n", b""))
    def git(*words):
        done = subprocess.run(["git", "-C", door.place, *GIT_IDENTITY, *words], check=True, stdout=subprocess.PIPE)
        return done.stdout.decode().strip()
    unknown = "commit unknown (no repository, or git is missing)"
    expect_version("no repository", f"{unknown}, {proved}", env={"GIT_DIR": str(ROOT / ".git")})
    (folder / "outer").mkdir()
    subprocess.run(["git", "init", "--quiet", folder / "outer"], check=True)
    words = ["commit", "--quiet", "--allow-empty", "--message", "outer"]
    subprocess.run(["git", "-C", folder / "outer", *GIT_IDENTITY, *words], check=True)
    inner = Imitation(folder / "outer/inner", PROGRAM)
    check("front door, --version, a folder of another repository", "text", inner.list("--version")[1].decode(),
          f"{unknown}, {proved}, link not built\n")
    git("init", "--quiet")
    (door.place / ".gitignore").write_text("target/\nout/\n")
    git("add", ".")
    git("commit", "--quiet", "--message", "test")
    commit = git("rev-parse", "HEAD")
    expect_version("a clean tree", f"commit {commit} (clean), {proved}")
    (door.place / "more").write_text("")
    expect_version("a tree with changes", f"commit {commit} (with changes), {proved}")
    door.source.write_text("changed\n")
    doubt = "not proved here: crates/ or crates.txt is not what was proved"
    expect_version("changed sources", f"commit {commit} (with changes), {proved} ({doubt})")
    door.program.unlink()
    none = f"commit {commit} (with changes), kit {KIT}, program not built"
    expect_version("no program", none)
    shutil.copy(LINK, door.place / "crates/link/out/link")
    hash_and_doubt = f"{sha256(LINK.read_bytes())} (not proved here: the program was built elsewhere, or by rt alone: "
    expect_version("a program for streams that rt built", none, hash_and_doubt + "no check from here vouches for it)")
    check("front door, --version", "checks asked for", door.asked(), 0)
    with open("/dev/full", "wb") as full:
        expect_door("--version to a full output", door.list("--version", stdout=full), FAILED)


def try_all(folder):
    first_use(folder)
    incomplete_checks(folder)
    other_programs(folder)
    exchanged_while_listing(folder)
    other_origins(folder)
    libraries(folder)
    pieces_after_build(folder)
    failing_read_after_build(folder)
    children_of_rt(folder)
    signals(folder)
    standing_reader(folder)
    two_at_once(folder)
    read_only(folder)
    tools(folder)
    environment(folder)
    shells(folder)
    no_listing_file(folder)
    arguments(folder)
    numbered_books(folder)
    version(folder)
