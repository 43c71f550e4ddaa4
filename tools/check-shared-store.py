#!/usr/bin/env python3
"""Installs one project by 8 processes at once over one store, some of which are killed, and checks what is left.

Each process installs into a folder of its own, from one registry. Those that weren't killed have to leave one tree, and so
has an install into the folder of one that was, and one more behind them. Each file and each listing in the store has to have its address as its SHA-512, each
package's listing has to be there with each file that it names, and no number is left but those of processes that were killed.
At last stored files are damaged, and one more install has to repair them.
Usage: tools/check-shared-store.py [PROGRAM [ROUNDS]]
"""
import hashlib
import json
import os
import random
import shutil
import subprocess
import sys
import tempfile
import time

sys.path.insert(0, os.path.join(os.path.dirname(os.path.abspath(__file__)), "lib"))
from stores import damage, misplaced, numbers_wrong, stored

TOP = os.path.dirname(os.path.dirname(os.path.abspath(__file__)))
INSTALLERS = 8
ROUNDS = 6
PACKAGES = 40
SIZES = [0, 1, 4096, 65535, 65536, 65537, 200000]


def make_registry(folder, rnd):
    """Packages that depend on the next two, and the listings' texts that they have to get."""
    texts = []
    for i in range(PACKAGES):
        home = os.path.join(folder, f"p{i}", "1.0.0")
        os.makedirs(os.path.join(home, "lib"))
        wants = {f"p{k}": "^1.0.0" for k in ((i + 1) % PACKAGES, (i + 2) % PACKAGES)}
        files = {"package.json": json.dumps({"name": f"p{i}", "version": "1.0.0", "dependencies": wants}).encode()}
        for size in SIZES:
            files[f"lib/{size}.js"] = rnd.randbytes(size)
        for path, data in files.items():
            with open(os.path.join(home, path), "wb") as file:
                file.write(data)
        lines = [f"{hashlib.sha512(files[path]).hexdigest()} {path}\n" for path in sorted(files)]
        texts.append("".join(lines).encode())
    return texts


def start(program, project, registry, store):
    os.makedirs(project, exist_ok=True)
    with open(os.path.join(project, "package.json"), "w") as file:
        file.write('{"dependencies": {"p0": "^1.0.0"}}')
    environment = dict(os.environ, PNPM_RS_STORE=store, PNPM_RS_REGISTRY=registry)
    return subprocess.Popen([program, "install"], stdout=subprocess.PIPE, stderr=subprocess.STDOUT, env=environment, cwd=project, text=True)


def ended_wrong(process):
    said = process.communicate()[0]
    wanted = f"projects 1\npackages {PACKAGES}\ninstances {PACKAGES}\n"
    if process.returncode == 0 and said == wanted:
        return []
    return [f"an install ended with {process.returncode} and said {said!r}"]


def tree_of(project):
    """Each entry of the managed folder, by its path: a link's text, or a file's digest."""
    found = {}
    top = os.path.join(project, "node_modules")
    for folder, folders, files in os.walk(top):
        for name in folders + files:
            path = os.path.join(folder, name)
            if os.path.islink(path):
                found[os.path.relpath(path, top)] = os.readlink(path)
            elif os.path.isfile(path):
                with open(path, "rb") as file:
                    found[os.path.relpath(path, top)] = hashlib.sha512(file.read()).hexdigest()
    return found


def store_wrong(store, texts, killed):
    files, listings = stored(store, "files"), stored(store, "listings")
    wrong = misplaced(files) + misplaced(listings) + numbers_wrong(store, killed)
    for text in texts:
        if listings.get(hashlib.sha512(text).hexdigest()) != text:
            wrong.append("a package's listing isn't in the store")
        wrong += [f"the file {line[:128]} isn't in the store" for line in text.decode().splitlines() if line[:128] not in files]
    return wrong


def kill(process, project, rnd, in_tree):
    """Kills an installer after a moment: of its own, or once it has begun its tree."""
    begun = os.path.join(project, "node_modules", ".pnpm")
    while in_tree and process.poll() is None and not os.path.exists(begun):
        time.sleep(0.001)
    time.sleep(rnd.random() * (0.01 if in_tree else 0.1))
    process.kill()
    process.communicate()


def one_round(program, folder, registry, texts, rnd, kills):
    wrong = []
    store = os.path.join(folder, "store")
    projects = [os.path.join(folder, f"project-{i}") for i in range(INSTALLERS)]
    running = [start(program, project, registry, store) for project in projects]
    killed = running[:3] if kills else []
    for i, process in enumerate(killed):
        kill(process, projects[i], rnd, i == 2)
    for process in running[len(killed):]:
        wrong += ended_wrong(process)
    for project in projects[:len(killed)]:
        wrong += ended_wrong(start(program, project, registry, store))
        if tree_of(project) != tree_of(projects[-1]):
            wrong.append("an install over what a killed one left differs")
    for again in ("more", "last"):
        project = os.path.join(folder, again)
        wrong += ended_wrong(start(program, project, registry, store))
        wrong += store_wrong(store, texts, len(killed))
        if tree_of(project) != tree_of(projects[-1]):
            wrong.append("two installs left two trees")
        damage(store, rnd, SIZES)
    shutil.rmtree(folder)
    return wrong


def main():
    program = os.path.abspath(sys.argv[1]) if len(sys.argv) > 1 else os.path.join(TOP, "pnpm-rs")
    rounds = int(sys.argv[2]) if len(sys.argv) > 2 else ROUNDS
    rnd = random.Random(1)
    wrong = []
    with tempfile.TemporaryDirectory() as top:
        registry = os.path.join(top, "registry")
        texts = make_registry(registry, rnd)
        for i in range(rounds):
            wrong += one_round(program, os.path.join(top, "round"), registry, texts, rnd, i % 2 == 1)
    for line in wrong[:10]:
        print(line)
    if wrong:
        print(f"failed: the store: {len(wrong)} lines differ")
        return 1
    print(f"passed: the store: {rounds} rounds of {INSTALLERS} installs at once over one store, some killed, some files damaged")
    return 0


if __name__ == "__main__":
    sys.exit(main())
