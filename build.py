#!/usr/bin/env python3
"""Proves and builds a program of this repository, and the crates that it stands on: several at a time, each once those below it
are built, as many as processors and free memory allow. What an earlier run built is not built again.

usage: build.py PROGRAM [WORD..]      the program is also run once, with these words
"""
import os, shutil, signal, subprocess, sys, tempfile, time

TOP = os.path.dirname(os.path.abspath(__file__))
# Where a control group sets a limit: the file of the limit, the file of what is in use, and the word before its number.
GROUPS = (("/sys/fs/cgroup/memory.max", "/sys/fs/cgroup/memory.stat", "anon"),
          ("/sys/fs/cgroup/memory/memory.limit_in_bytes", "/sys/fs/cgroup/memory/memory.stat", "total_rss"))


def words_in(file):
    """Returns the words of a file, and none if it cannot be read."""
    try:
        with open(file, encoding="utf-8") as it:
            return it.read().split()
    except OSError:
        return []


def number_after(words, name):
    """Returns the number after a word, if there is one."""
    at = words.index(name) + 1 if name in words else len(words)
    return int(words[at]) if at < len(words) and words[at].isdigit() else None


def processors():
    """Returns how many processors may be used: fewer than there are if a control group sets a quota."""
    found = len(os.sched_getaffinity(0))
    period = words_in("/sys/fs/cgroup/cpu.max")
    quotas = [period, words_in("/sys/fs/cgroup/cpu/cpu.cfs_quota_us") + words_in("/sys/fs/cgroup/cpu/cpu.cfs_period_us")]
    for quota in quotas:
        if len(quota) == 2 and quota[0].isdigit():
            found = min(found, max(int(quota[0]) // int(quota[1]), 1))
    return found


def free_memory():
    """Returns the free memory in bytes, under the limit of a control group too."""
    found = [1024 * (number_after(words_in("/proc/meminfo"), "MemAvailable:") or 0)]
    for limit, stat, name in GROUPS:
        limit, used = words_in(limit), number_after(words_in(stat), name)
        if limit and limit[0].isdigit() and used is not None:
            found.append(int(limit[0]) - used)
    return min(found)


def crates_below(program):
    """Returns the crates to build, lowest first, each with those that it names."""
    listed, found = {}, {}
    with open(f"{TOP}/crates.txt", encoding="utf-8") as it:
        for line in it:
            name, colon, below = line.partition("#")[0].partition(":")
            if colon:
                listed[name.split()[0]] = below.split()

    def visit(name):
        if name in listed and name not in found:
            for it in listed[name]:
                visit(it)
            found[name] = [it for it in listed[name] if it in listed]

    visit(program)
    return found


def lines_of(name):
    """Returns how many lines of code, and of specs and proofs, a crate has."""
    count = {".rt": 0, ".antt": 0}
    for part in ("src", "specs", "proofs"):
        for folder, _, files in os.walk(f"{TOP}/crates/{name}/{part}"):
            for file in files:
                kind = os.path.splitext(file)[1]
                if kind in count:
                    with open(f"{folder}/{file}", "rb") as it:
                        count[kind] += it.read().count(b"\n")
    return count[".rt"], count[".antt"]


def link(source, target):
    """Makes a second name of a file, or a copy where the file system has no second names."""
    try:
        os.link(source, target)
    except OSError:
        shutil.copy2(source, target)


def hand_on(name, source, target):
    """Hands a library that was built in one folder to another that has the same text."""
    built, wanted = f"{source}/crates/{name}/out/rlib", f"{target}/crates/{name}/out/rlib"
    if os.path.isdir(built):
        shutil.rmtree(wanted, ignore_errors=True)
        shutil.copytree(built, wanted, copy_function=link)


class Build:
    def __init__(self, program, words):
        self.program, self.words, self.started = program, words, time.time()
        self.below = crates_below(program)
        self.lines = {name: lines_of(name) for name in self.below}
        self.work = {name: sum(it) + 100 for name, it in self.lines.items()}
        # The longest chain of work above each crate: those with the longest come first.
        self.chain = dict(self.work)
        for name in reversed(self.below):
            for it in self.below[name]:
                self.chain[it] = max(self.chain[it], self.work[it] + self.chain[name])
        self.waiting = sorted(self.below, key=lambda it: -self.chain[it])
        self.running, self.built, self.again = {}, {}, set()

    def all_below(self, name, found=None):
        found = set() if found is None else found
        for it in self.below[name]:
            if it not in found:
                found.add(it)
                self.all_below(it, found)
        return found

    def memory(self, name, jobs):
        """Returns the most memory that a crate's check is likely to take, in bytes."""
        code, proofs = self.lines[name]
        below = sum(self.lines[it][0] for it in self.all_below(name))
        return (1_500_000_000 + 1_000_000 * code + 200_000 * proofs + 80_000 * below) * (1 + 0.6 * (jobs - 1))

    def own_folder(self, name):
        """Makes a copy of a crate and of those below it, with the libraries that are built. `rt` works on one crate at a time in a
        folder, and on none above a crate that it works on: so each crate is proved in a folder of its own."""
        top = f"{TOP}/out/{name}"
        shutil.rmtree(top, ignore_errors=True)
        needed = [*self.all_below(name), name]
        for it in needed:
            shutil.copytree(f"{TOP}/crates/{it}", f"{top}/crates/{it}", ignore=shutil.ignore_patterns("out"))
            hand_on(it, TOP, top)
        shutil.copy(f"{TOP}/HANDLES", top)
        with open(f"{TOP}/crates.txt", encoding="utf-8") as lines, open(f"{top}/crates.txt", "w", encoding="utf-8") as it:
            it.writelines(line for line in lines if line.partition(":")[0].split()[:1] and line.split(":")[0].split()[0] in needed)
        return top

    def start(self, name, jobs):
        """Starts the proof of a crate, in a process group of its own."""
        if name == self.program:
            top, last = TOP, ["run", "--jobs", str(jobs), "--", *self.words]
        else:
            top, last = self.own_folder(name), ["lib", "--jobs", str(jobs)]
        log = tempfile.TemporaryFile()
        ran = subprocess.Popen(["rt", *last], cwd=f"{top}/crates/{name}", stdin=subprocess.DEVNULL, stdout=log,
                               stderr=subprocess.STDOUT, start_new_session=True)
        self.running[ran.pid] = (name, ran, log, time.time(), jobs, self.memory(name, jobs))

    def start_ready(self, lanes, memory):
        """Starts what is ready, as long as there is a processor and memory for it."""
        if self.running and any(it in self.again for it in [*self.waiting, *(it[0] for it in self.running.values())]):
            return
        ready = [it for it in self.waiting if all(below in self.built for below in self.below[it])]
        for at, name in enumerate(ready):
            idle = lanes - sum(it[4] for it in self.running.values())
            room = memory - sum(it[5] for it in self.running.values())
            if not self.running or idle > 0 and self.memory(name, 1) <= room:
                # Processors that no other crate can use yet help with this one.
                jobs = 1 if name in self.again else max(1, min(4, idle // (len(ready) - at)))
                while jobs > 1 and self.memory(name, jobs) > room:
                    jobs -= 1
                self.waiting.remove(name)
                self.start(name, jobs)
                if name in self.again:
                    return

    def say(self, text):
        print(f"ldar: {text}", file=sys.stderr, flush=True)

    def ended(self, name, log, seconds, status):
        """Notes that a crate is built, or takes it up again, alone, if it was killed. Returns whether the build goes on."""
        if status == 0:
            self.built[name] = seconds
            if name != self.program:
                hand_on(name, f"{TOP}/out/{name}", TOP)
                shutil.rmtree(f"{TOP}/out/{name}", ignore_errors=True)
            share = 100 * sum(self.work[it] for it in self.built) // sum(self.work.values())
            self.say(f"{len(self.built)} of {len(self.below)} ({share} percent of the lines), {name} took {seconds:.0f} seconds")
            return True
        # 9 is the signal by which the system ends a process when memory runs out.
        if status in (-9, 128 + 9, 256 - 9) and name not in self.again:
            self.say(f"{name} was killed, most likely because memory ran out: it is tried again with nothing beside it")
            self.again.add(name)
            self.waiting.insert(0, name)
            return True
        log.seek(0)
        sys.stderr.write(log.read().decode("utf-8", "replace"))
        self.say(f"{name} was not built: above is what `rt` said in crates/{name}")
        return False

    def stop(self):
        for _, ran, *_ in self.running.values():
            try:
                os.killpg(ran.pid, signal.SIGTERM)
            except OSError:
                pass
        for _, ran, *_ in self.running.values():
            ran.wait()

    def run(self):
        lanes, memory = processors(), 0.85 * free_memory()
        self.say(f"{len(self.below)} crates are proved, at most {lanes} at a time, and then the program is built")
        try:
            while self.waiting or self.running:
                self.start_ready(lanes, memory)
                pid, status = os.wait()
                if pid not in self.running:
                    continue
                name, ran, log, start, _, _ = self.running.pop(pid)
                ran.returncode = -os.WTERMSIG(status) if os.WIFSIGNALED(status) else os.WEXITSTATUS(status)
                if not self.ended(name, log, time.time() - start, ran.returncode):
                    return 1
        finally:
            self.stop()
        self.say(f"built in {time.time() - self.started:.0f} seconds")
        return 0


def interrupted(number, frame):
    raise KeyboardInterrupt


if __name__ == "__main__":
    if len(sys.argv) < 2:
        sys.exit(__doc__)
    signal.signal(signal.SIGTERM, interrupted)
    try:
        sys.exit(Build(sys.argv[1], sys.argv[2:]).run())
    except KeyboardInterrupt:
        sys.exit(130)
    except OSError as error:
        sys.exit(f"ldar: {error}")
