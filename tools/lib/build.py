"""Builds a program of this repository with the kit's rt, and tells on standard error how far it is.

The crates below it are proved first, side by side. One build runs at a time in a checkout.
Usage: build.py NAME KIT'S LINE
"""
import fcntl
import os
import re
import subprocess
import sys
import threading
import time

TOP = os.path.dirname(os.path.dirname(os.path.dirname(os.path.abspath(__file__))))
# What a crate's proof takes at most, mostly.
BYTES_A_PROOF = 4 << 30
# So often it is told, in seconds, how far the build is.
PERIOD = 20
# With neither words nor input, pnpm_rs has its usage error, or can't use the path of the current folder.
ENDS = {"pnpm_rs": (2, 20, 22)}


def tell(text):
    print(text, file=sys.stderr, flush=True)


def sources_of(name):
    ended = subprocess.run([f"{TOP}/tools/sources.sh", name], stdout=subprocess.PIPE, text=True, check=True)
    return ended.stdout.strip()


def crates_of(name):
    """The program's crate and those below it."""
    below = {}
    with open(f"{TOP}/crates.txt", encoding="utf-8") as file:
        for line in file:
            head, _, others = line.partition("#")[0].partition(":")
            if head.split():
                below[head.split()[0]] = others.replace(",", " ").split()
    found, waiting = [], [name]
    while waiting:
        crate = waiting.pop()
        if crate in below and crate not in found:
            found.append(crate)
            waiting += below[crate]
    return found


def number_in(path, line=""):
    """The number that a file has, behind this text on a line; None where there is none."""
    try:
        with open(path, encoding="utf-8") as file:
            found = re.search(rf"^{line}\s*(\d+)", file.read(), re.M)
    except OSError:
        return None
    return found and int(found[1])


def free_bytes():
    """The free memory, under the limit of the control group too."""
    free = [(number_in("/proc/meminfo", "MemAvailable:") or 0) << 10]
    limit, held = (number_in(f"/sys/fs/cgroup/memory.{name}") for name in ("max", "current"))
    if limit and held is not None:
        free.append(limit - held)
    return min(free)


def at_once():
    """As many proofs at a time as there are processors, and as memory holds; RT_JOBS says another number, as it does to rt ci."""
    wanted = os.environ.get("RT_JOBS", "")
    if wanted.isdigit() and int(wanted) > 0:
        return int(wanted)
    return max(1, min(len(os.sched_getaffinity(0)), free_bytes() // BYTES_A_PROOF))


class Progress:
    """Which crates are proved, and how long it has taken."""

    def __init__(self, name):
        self.name, self.crates, self.ended, self.began = name, crates_of(name), [], time.time()

    def hear(self, line):
        words = line.split()
        if len(words) == 2 and words[0] == "==" and words[1] in self.crates:
            self.ended.append(words[1])
        if line.startswith("logic=not-proved") and self.ended:
            self.ended.pop()

    def is_going(self, crate):
        """rt makes a library's folder anew when it begins, and writes the stamp when it has ended. The program comes last."""
        if crate == self.name:
            return len(self.ended) == len(self.crates) - 1
        folder = f"{TOP}/crates/{crate}/out/rlib"
        try:
            return os.stat(folder).st_mtime >= self.began - 1 and not os.path.exists(f"{folder}/stamp")
        except OSError:
            return False

    def tell(self):
        going = [crate for crate in sorted(self.crates) if crate not in self.ended and self.is_going(crate)]
        first = "" if self.ended else "; reading the sources"
        now = f"; now {', '.join(going)}" if going else first
        seconds = int(time.time() - self.began)
        so_far = f"{len(self.ended)} of {len(self.crates)} crates proved"
        tell(f"{self.name}: {so_far}{now} ({seconds // 60} min {seconds % 60:02} s)")


def run(words, name, log, hear=lambda line: None):
    """Runs a command of rt in the crate's folder, hears each line that it prints, and answers its status."""
    env = {key: value for key, value in os.environ.items() if key != "PNPM_RS_REGISTRY"}
    how = {"cwd": f"{TOP}/crates/{name}", "env": env, "stdin": subprocess.DEVNULL, "stdout": subprocess.PIPE, "stderr": subprocess.STDOUT}
    with subprocess.Popen(words, text=True, errors="replace", **how) as started:
        for line in started.stdout:
            log.write(line)
            hear(line)
    log.write(f"{' '.join(words)} ended with {started.returncode}\n")
    return started.returncode


def prove(name, log):
    """Proves the program and the crates below it, and says whether all are proved."""
    progress, done, jobs = Progress(name), threading.Event(), at_once()

    def keep_telling():
        while not done.wait(PERIOD):
            progress.tell()

    teller = threading.Thread(target=keep_telling, daemon=True)
    tell(f"{name}: it isn't built of these sources yet: proving its {len(progress.crates)} crates, {jobs} at a time, those that are proved already aside")
    teller.start()
    try:
        status = run(["rt", "all", "check", "--jobs", str(jobs)], name, log, progress.hear)
    finally:
        done.set()
        teller.join()
    if status == 0:
        progress.tell()
    return status == 0


def link(name, log):
    """Has rt link the program, which it then runs, and says whether the program stands and ended as it should. rt has
    statuses of its own, 2 among them, so no program stands before."""
    status = run(["rt", "run"], name, log)
    return status in ENDS.get(name, (0,)) and os.path.exists(f"{TOP}/crates/{name}/out/{name}")


def remove(*paths):
    for path in paths:
        if os.path.exists(path):
            os.remove(path)


def build(name, kit):
    program = f"{TOP}/crates/{name}/out/{name}"
    os.makedirs(os.path.dirname(program), exist_ok=True)
    said, before = f"{program}.made-of", sources_of(name)
    wanted = f"kit: {kit}\n{name}: {before}\n"
    if os.path.exists(program) and os.path.exists(said):
        with open(said, encoding="utf-8") as file:
            if file.read() == wanted:
                return 0
    remove(program, said)
    with open(f"{program}.log", "w", encoding="utf-8") as log:
        is_made = prove(name, log) and link(name, log)
    if not is_made:
        remove(program)
        with open(f"{program}.log", encoding="utf-8") as log:
            sys.stderr.writelines(log.readlines()[-40:])
        tell(f"{name}: the program can't be built; all that rt said is in crates/{name}/out/{name}.log")
        return 1
    if sources_of(name) != before:
        remove(program)
        tell(f"{name}: a source was changed while the program was built: once more, please")
        return 1
    with open(said, "w", encoding="utf-8") as file:
        file.write(wanted)
    return 0


def main():
    name, kit = sys.argv[1:]
    lock = os.open(f"{TOP}/crates", os.O_RDONLY)
    try:
        fcntl.flock(lock, fcntl.LOCK_EX | fcntl.LOCK_NB)
    except BlockingIOError:
        tell(f"{name}: another build is at work in this checkout: waiting for its end")
        fcntl.flock(lock, fcntl.LOCK_EX)
    try:
        return build(name, kit)
    except OSError as e:
        tell(f"{name}: the program can't be built: {e}")
    except KeyboardInterrupt:
        tell(f"{name}: the build was stopped; what is proved is kept")
    return 1


if __name__ == "__main__":
    sys.exit(main())
