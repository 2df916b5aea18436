#!/usr/bin/env python3
"""build_crates.py BESIDE [--gate]: proves and builds the programs of tools/commands.txt into bin, with all crates that they need.

BESIDE crates are built beside each other, each after those that it needs; of those that can begin, the one goes first above which most code is.
`rt` keeps a crate and all below it to itself while it works. So each crate is built in a copy of the repository, bin/copies/NAME, that has
what it needs: the texts, and the libraries below, by hard links. `rt` only reads those: before it writes a library it removes the old one.
The crate's own folder `out` is moved there and back, so that what `rt` kept of it counts, also after an interrupt.
With --gate, for a kit that keeps on a machine what `rt ci` passed, `rt ci` does all of it, in one copy without edits and rows. So the whole
gate proves nothing of it again."""
import contextlib
import fcntl
import hashlib
import os
import re
import shutil
import signal
import subprocess
import sys
import threading
import time

from extraction.running import run

COPIES, BUILT = "bin/copies", "bin/built"
KILLED = (-signal.SIGKILL, 128 + signal.SIGKILL, 256 - signal.SIGKILL)


class Fault(Exception):
    """What ends the build, in one line."""


class Crate:
    """A crate of crates.txt: its name, the names of those that it needs, and its line there."""

    def __init__(self, name, needs, line):
        self.name, self.needs, self.line = name, needs, line
        self.folder = f"crates/{name}"

    def files(self):
        """The paths of its texts, without what was built and without edits."""
        for folder, folders, names in os.walk(self.folder):
            if folder == self.folder:
                folders[:] = [each for each in folders if each not in ("out", "must-fail")]
            folders.sort()
            yield from (f"{folder}/{name}" for name in sorted(names))

    def lines(self):
        """How many lines of code it has, which tells roughly how long its proof takes."""
        return 100 + sum(text_of(path).count(b"\n") for path in self.files() if path.endswith(".rt"))


def text_of(path):
    """The bytes of a file; none if it is not there."""
    try:
        with open(path, "rb") as file:
            return file.read()
    except FileNotFoundError:
        return b""


def write(path, text):
    """Writes a file whole or not at all, unless it has this text already."""
    if os.path.isfile(path) and text_of(path).decode() == text:
        return
    with open(path + ".new", "w", encoding="utf-8") as file:
        file.write(text)
    os.replace(path + ".new", path)


def say(*lines):
    """Prints lines; if nobody reads them, the work goes on."""
    with contextlib.suppress(BrokenPipeError):
        print(*lines, sep="\n", flush=True)


@contextlib.contextmanager
def locked(folder):
    """Keeps a folder as `rt` does: whoever comes later waits."""
    held = os.open(folder, os.O_RDONLY)
    try:
        fcntl.flock(held, fcntl.LOCK_EX)
        yield
    finally:
        os.close(held)


def read_crates():
    """All crates by name, in the order of crates.txt."""
    rows = [line.split("#")[0].partition(":") for line in text_of("crates.txt").decode().splitlines()]
    rows = [(head.split()[0], rest.split(), f"{head}:{rest}\n") for head, colon, rest in rows if colon]
    names = {name for name, _, _ in rows}
    return {name: Crate(name, [each for each in needs if each in names], line) for name, needs, line in rows}


def read_programs():
    """The programs that are wanted: by name the status of a run and its words."""
    rows = [line.split() for line in text_of("tools/commands.txt").decode().splitlines()]
    return {row[0]: (int(row[2]), row[3:]) for row in rows if row[1:2] == ["program"]}


def below(crates, name):
    """The names of all crates that a crate needs, in the order of crates.txt."""
    found, left = set(), [name]
    while left:
        new = set(crates[left.pop()].needs) - found
        found |= new
        left += new
    return [each for each in crates if each in found]


def ordered(crates, names):
    """The names, each after those that its crate needs."""
    found = []
    while len(found) < len(names):
        ready = [each for each in names if each not in found and set(crates[each].needs) <= set(found)]
        if not ready:
            raise Fault("crates.txt has a circle")
        found += ready
    return found


def heights(crates, wanted):
    """For each wanted crate the lines of code of the longest chain from it upwards."""
    found = {}
    for name in reversed(wanted):
        above = [found[other] for other in found if name in crates[other].needs]
        found[name] = crates[name].lines() + max(above, default=0)
    return found


def kit_name():
    """What the kit says of itself; without one, what it said when it was here last, so that what is built can be installed."""
    if shutil.which("rt") is None:
        return text_of(f"{BUILT}/kit").decode()
    said = subprocess.run(["rt", "version"], stdout=subprocess.PIPE, stderr=subprocess.DEVNULL, check=False).stdout.decode(errors="replace")
    write(f"{BUILT}/kit", said)
    return said


def sums(crates, wanted):
    """For each wanted crate a sum of all that it is built from."""
    kit, found = kit_name(), {}
    for name in wanted:
        texts = [(path, hashlib.sha256(text_of(path)).hexdigest()) for path in crates[name].files()]
        lower = [found[each] for each in crates[name].needs]
        found[name] = hashlib.sha256(repr((kit, crates[name].line, texts, lower)).encode()).hexdigest()
    return found


def sum_line(name):
    """The line of `sha256sum` on a program."""
    return f"{hashlib.sha256(text_of(f'bin/{name}')).hexdigest()}  {name}\n"


def keep_program(name, built):
    """Takes a program that was proved and built to bin, with its sum, by which it is installed and released."""
    shutil.copy(built, f"bin/{name}.new")
    os.replace(f"bin/{name}.new", f"bin/{name}")
    write(f"{BUILT}/{name}.sha256", sum_line(name))


def move_out(source, target):
    """Moves what was built and kept of a crate from one of its folders to the other."""
    if os.path.isdir(f"{source}/out"):
        shutil.rmtree(f"{target}/out", ignore_errors=True)
        os.makedirs(target, exist_ok=True)
        os.rename(f"{source}/out", f"{target}/out")


def stop(process):
    """Ends a process with all that it began."""
    with contextlib.suppress(ProcessLookupError):
        os.killpg(process.pid, signal.SIGTERM)


def why(log, status):
    """Why `rt` ended so, in one line, after the last lines that it wrote."""
    text = text_of(log).decode(errors="replace")
    say(*text.splitlines()[-20:])
    if "No space left on device" in text:
        return "no space left on the disk of bin, or of what is temporary"
    if re.search("address space|[Oo]ut of memory|bad_alloc|MemoryError", text):
        return "there is too little memory; a crate takes up to 4 GB"
    if status in KILLED:
        return "it was killed, most likely for want of memory; a crate takes up to 4 GB"
    return f"rt ended with status {status}; {log} has what it says"


class Build:
    """One run: what is wanted, what is done, and what is at work."""

    def __init__(self, beside, by_gate):
        self.beside, self.by_gate = beside, by_gate
        self.crates, self.programs = read_crates(), read_programs()
        missing = [name for name in self.programs if name not in self.crates]
        if missing:
            raise Fault(f"crates.txt has no crate {missing[0]}, a program of tools/commands.txt")
        needed = {each for name in self.programs for each in [name, *below(self.crates, name)]}
        self.wanted = ordered(self.crates, [each for each in self.crates if each in needed])
        self.heights, self.sums = heights(self.crates, self.wanted), sums(self.crates, self.wanted)
        self.done, self.running, self.faults = set(), {}, []
        self.clear()
        self.find_done(False)
        if len(self.done) < len(self.wanted):
            self.find_done(not by_gate)
        self.change = threading.Condition()

    def find_done(self, with_libraries):
        """Notes which crates are built from these texts already; for what is above them the libraries have to be there too."""
        self.done = set()
        for name in self.wanted:
            is_same = text_of(f"{BUILT}/{name}").decode() == self.sums[name] and self.done.issuperset(self.crates[name].needs)
            if name in self.programs:
                is_there = text_of(f"{BUILT}/{name}.sha256").decode() == sum_line(name)
            else:
                is_there = not with_libraries or os.path.isfile(f"{self.crates[name].folder}/out/rlib/stamp")
            if is_same and is_there:
                self.done.add(name)

    def ready(self):
        """The crates that can begin now, the one first above which most code is."""
        left = [each for each in self.wanted if each not in self.done and each not in self.running]
        left = [each for each in left if self.done.issuperset(self.crates[each].needs)]
        return sorted(left, key=lambda each: -self.heights[each])

    def work(self):
        """What one thread does: it takes a crate that can begin, as long as there are some."""
        while True:
            with self.change:
                while self.running and not self.faults and not self.ready():
                    self.change.wait()
                ready = self.ready()
                if self.faults or not ready:
                    return
                name = ready[0]
                self.running[name] = None
                jobs = max(1, self.beside // (len(self.running) + len(ready) - 1))
            fault, began = None, time.monotonic()
            try:
                self.build(name, jobs)
            except Exception as error:
                fault = f"{name} is not built: {reason(error)}"
            self.end(name, fault, (time.monotonic() - began) / 60)

    def end(self, name, fault, minutes):
        """Notes how a crate ended."""
        with self.change:
            del self.running[name]
            if fault:
                self.faults.append(fault)
            else:
                self.done.add(name)
                what = f"bin/{name}" if name in self.programs else name
                say(f"hz: {what} after {minutes:.1f} minutes, {len(self.done)} of {len(self.wanted)}")
            self.change.notify_all()

    def build(self, name, jobs):
        """Builds a crate in a copy, and takes what was built from there."""
        copy, folder = f"{COPIES}/{name}", self.crates[name].folder
        with locked(folder):
            try:
                self.copy_texts(copy, [*below(self.crates, name), name])
                move_out(folder, f"{copy}/{folder}")
                self.link_libraries(copy, name)
                self.call(name, f"{copy}/{folder}", jobs)
            finally:
                move_out(f"{copy}/{folder}", folder)
                shutil.rmtree(copy, ignore_errors=True)
        write(f"{BUILT}/{name}", self.sums[name])

    def copy_texts(self, copy, names):
        """Writes the texts of the crates to the copy."""
        for each in map(self.crates.get, names):
            for path in each.files():
                os.makedirs(os.path.dirname(f"{copy}/{path}"), exist_ok=True)
                shutil.copyfile(path, f"{copy}/{path}")
        write(f"{copy}/crates.txt", "".join(self.crates[each].line for each in names))
        if os.path.isfile("HANDLES"):
            shutil.copyfile("HANDLES", f"{copy}/HANDLES")

    def link_libraries(self, copy, name):
        """Puts the libraries below a crate into the copy."""
        for each in below(self.crates, name):
            library = f"{self.crates[each].folder}/out/rlib"
            shutil.copytree(library, f"{copy}/{library}", copy_function=os.link)

    def call(self, name, folder, jobs):
        """Calls `rt` on a crate; bin/built/NAME.log has what it writes. A program has to answer with its status, and is taken to bin."""
        words = ["rt", "lib", "--jobs", str(jobs)]
        if name in self.programs:
            words = ["rt", "run", "--jobs", str(jobs), "--", *self.words(name)]
        path = f"{BUILT}/{name}.log"
        with open(path, "wb") as log:
            ran = self.begin(name, words, cwd=folder, stdout=subprocess.PIPE, stderr=log)
            answer = ran.communicate()[0]
            log.write(answer)
        if name in self.programs:
            self.judge(name, ran.returncode, answer, path)
            keep_program(name, f"{folder}/out/{name}")
        elif ran.returncode:
            raise Fault(why(path, ran.returncode))

    def words(self, name):
        """The words with which a program is run, by which files are found from any folder."""
        return [os.path.abspath(word) if "/" in word else word for word in self.programs[name][1]]

    def begin(self, name, words, **how):
        """Begins a process, which is ended with this one."""
        with self.change:
            if self.faults:
                raise Fault("stopped")
            self.running[name] = subprocess.Popen(words, stdin=subprocess.DEVNULL, start_new_session=True, **how)
            return self.running[name]

    def judge(self, name, status, answer, log):
        """A program has to answer, with the status that is wanted."""
        if status != self.programs[name][0] or not answer:
            raise Fault(why(log, status))
        say(f"hz: {name} answers '{answer.decode(errors='replace').splitlines()[0]}'")

    def call_gate(self):
        """Has `rt ci` prove and build all in one copy; bin/built/gate.log has what it writes."""
        copy, log, began = f"{COPIES}/gate", f"{BUILT}/gate.log", time.monotonic()
        self.copy_texts(copy, self.wanted)
        os.makedirs(f"{copy}/.git")
        with open(log, "wb") as file:
            jobs, proved = {**os.environ, "RT_JOBS": str(self.beside)}, 0
            ran = self.begin("gate", ["rt", "ci"], cwd=copy, stdout=subprocess.PIPE, stderr=subprocess.STDOUT, env=jobs)
            for line in ran.stdout:
                file.write(line)
                file.flush()
                if ended := re.fullmatch(rb"rt: (hz\w*) (?:proved|is kept: .*)\s*", line):
                    proved += 1
                    say(f"hz: {ended[1].decode()} proved after {(time.monotonic() - began) / 60:.1f} minutes, {proved} of {len(self.wanted)}")
        ran.wait()
        self.running.clear()
        if ran.returncode:
            raise Fault(f"not all is proved: {why(log, ran.returncode)}")
        for name in self.programs:
            built = f"{copy}/{self.crates[name].folder}/out/{name}"
            run = subprocess.run([built, *self.words(name)], stdin=subprocess.DEVNULL, stdout=subprocess.PIPE, check=False)
            self.judge(name, run.returncode, run.stdout, log)
            keep_program(name, built)
        for name in self.wanted:
            write(f"{BUILT}/{name}", self.sums[name])

    def call_each(self):
        """Builds what is not done, and raises the first fault."""
        threads = [threading.Thread(target=self.work) for _ in range(self.beside)]
        for each in threads:
            each.start()
        try:
            for each in threads:
                each.join()
        finally:
            self.stop_all()
            for each in threads:
                each.join()
        if self.faults:
            raise Fault(self.faults[0])

    def run(self):
        """Builds what is wanted and not done."""
        left = len(self.wanted) - len(self.done)
        if left:
            kit = subprocess.run(["sh", "tools/check_kit.sh"], stdout=subprocess.PIPE, check=False)
            if kit.returncode:
                raise Fault(kit.stdout.decode().strip().removeprefix("hz: "))
            say(f"hz: proving and building {left} crates, up to {self.beside} beside each other; {BUILT} has what the prover says of each")
            try:
                self.call_gate() if self.by_gate else self.call_each()
            finally:
                self.stop_all()
                shutil.rmtree(COPIES, ignore_errors=True)

    def clear(self):
        """Puts back what a run that was killed kept, and removes its copies."""
        for name in os.listdir(COPIES) if os.path.isdir(COPIES) else []:
            folder = f"crates/{name}"
            if os.path.isdir(f"{COPIES}/{name}/{folder}") and os.path.isdir(folder) and not os.path.isdir(f"{folder}/out"):
                # (what that run began may be at work still)
                with locked(f"{COPIES}/{name}/{folder}"):
                    move_out(f"{COPIES}/{name}/{folder}", folder)
        shutil.rmtree(COPIES, ignore_errors=True)

    def stop_all(self):
        """Ends what is at work, and lets nothing more begin."""
        with self.change:
            if self.running:
                self.faults.append("stopped")
            for each in filter(None, self.running.values()):
                stop(each)
            self.change.notify_all()


def reason(error):
    """Why something was not done, in one line."""
    if "No space left" in str(error):
        return "no space left on the disk of bin"
    if isinstance(error, shutil.Error):
        return f"{error.args[0][0][1]}: {error.args[0][0][2]}"
    if isinstance(error, OSError) and error.strerror:
        return f"{error.filename}: {error.strerror}"
    return str(error)


def end(number, _):
    raise KeyboardInterrupt


def main(words):
    if not words or not words[0].isdigit() or words[0] == "0" or words[1:] not in ([], ["--gate"]):
        print(__doc__.split("\n", maxsplit=1)[0])
        return 2
    signal.signal(signal.SIGTERM, end)
    signal.signal(signal.SIGHUP, end)
    try:
        os.chdir(os.path.join(os.path.dirname(os.path.realpath(__file__)), ".."))
        os.makedirs(BUILT, exist_ok=True)
        with locked(BUILT):
            Build(int(words[0]), len(words) == 2).run()
    except (Fault, OSError) as error:
        say(f"hz: {reason(error)}")
        return 2
    except KeyboardInterrupt:
        say("hz: stopped; make goes on from here")
        return 130
    return 0


if __name__ == "__main__":
    run(main, sys.argv[1:])
