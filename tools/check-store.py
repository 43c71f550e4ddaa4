#!/usr/bin/env python3
"""Puts the same files into one store by 8 installers at once, 20 times, and checks what they say and leave.

Each installer is a process of its own (store_check). In each fourth round some of them are killed on the way, and one more
has to succeed behind them. Each installer that wasn't killed has to print the digests that python's hashlib computes. After
each round each file and each listing in the store has to have its address as its SHA-512, to be what was put, and to be
there; no number is left but those of installers that were killed. At last stored files are damaged, and one more put has to
repair them.
Usage: tools/check-store.py [PATH OF store_check]
"""
import base64
import hashlib
import os
import random
import shutil
import subprocess
import sys
import tempfile
import time

sys.path.insert(0, os.path.join(os.path.dirname(os.path.abspath(__file__)), "lib"))
from stores import damage, misplaced, numbers_wrong, stored

TOP = os.path.dirname(os.path.dirname(os.path.abspath(__file__)))
INSTALLERS = 8
ROUNDS = 20
SIZES = [0, 1, 3, 1000, 65535, 65536, 65537, 131072, 200000]


def make_files(folder, rnd):
    """Files of these sizes, each content twice, and what store_check prints for each."""
    wanted = {}
    for i in range(6):
        for size in SIZES:
            data = rnd.randbytes(size)
            digest = hashlib.sha512(data).hexdigest()
            text = f"{digest} x\n".encode()
            at = hashlib.sha512(text)
            line = f"{digest} {size} sha512-{base64.b64encode(at.digest()).decode()}"
            for copy in "ab":
                path = os.path.join(folder, f"{i}-{size}-{copy}")
                with open(path, "wb") as file:
                    file.write(data)
                wanted[path] = (line, digest, at.hexdigest())
    return wanted


def start(program, store, paths, folder):
    environment = dict(os.environ, PNPM_RS_STORE=store)
    process = subprocess.Popen([program], stdin=subprocess.PIPE, stdout=subprocess.PIPE, env=environment, cwd=folder, text=True)
    process.stdin.write("".join(f"{path}\n" for path in paths))
    process.stdin.close()
    return process


def said_wrong(process, paths, wanted):
    """What an installer that wasn't killed said otherwise than wanted."""
    said = process.stdout.read().splitlines()
    ended = process.wait()
    if ended != 0:
        return [f"an installer ended with {ended}"]
    if len(said) != len(paths):
        return [f"an installer said {len(said)} lines of {len(paths)}"]
    return [f"{path}: {line}" for path, line in zip(paths, said) if line != wanted[path][0]]


def left_wrong(store, wanted, killed):
    """What a round left otherwise than wanted."""
    wrong = numbers_wrong(store, killed)
    for place, part in (("files", 1), ("listings", 2)):
        found = stored(store, place)
        wrong += misplaced(found)
        if set(found) != {row[part] for row in wanted.values()}:
            wrong.append(f"{place}: {len(found)} addresses")
    return wrong


def one_round(program, folder, wanted, rnd, kills):
    """One round on a store of its own."""
    wrong = []
    store = os.path.join(folder, "store")
    orders = [rnd.sample(sorted(wanted), len(wanted)) for _ in range(INSTALLERS)]
    running = [start(program, store, paths, folder) for paths in orders]
    killed = running[:3] if kills else []
    for process in killed:
        time.sleep(rnd.random() * 0.02)
        process.kill()
    for process, paths in zip(running, orders):
        if process in killed:
            process.stdout.read()
            process.wait()
        else:
            wrong += said_wrong(process, paths, wanted)
    if kills:
        wrong += said_wrong(start(program, store, orders[0], folder), orders[0], wanted)
    wrong += left_wrong(store, wanted, len(killed))
    damage(store, rnd, SIZES)
    wrong += said_wrong(start(program, store, orders[0], folder), orders[0], wanted)
    wrong += left_wrong(store, wanted, len(killed))
    shutil.rmtree(store)
    return wrong


def main():
    if len(sys.argv) > 1:
        program = os.path.abspath(sys.argv[1])
    else:
        built = subprocess.run([os.path.join(TOP, "tools/built.sh"), "store_check"], stdout=subprocess.PIPE, text=True)
        if built.returncode == 127:
            print("skipped: the store: store_check isn't built, and there is no rt")
            return 0
        if built.returncode != 0:
            print("failed: the store: store_check can't be built")
            return 1
        program = built.stdout.strip()
    rnd = random.Random(1)
    wrong = []
    with tempfile.TemporaryDirectory() as folder:
        files = os.path.join(folder, "files")
        os.mkdir(files)
        wanted = make_files(files, rnd)
        for i in range(ROUNDS):
            wrong += one_round(program, folder, wanted, rnd, i % 4 == 3)
    for line in wrong[:10]:
        print(line)
    if wrong:
        print(f"failed: the store: {len(wrong)} lines differ")
        return 1
    print(f"passed: the store: {ROUNDS} rounds of {INSTALLERS} installers at once on one store, each of {len(wanted)} files")
    return 0


if __name__ == "__main__":
    sys.exit(main())
