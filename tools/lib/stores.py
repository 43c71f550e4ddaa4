"""Stores in folders of the file system, for the checks: read, counted and damaged."""
import hashlib
import os


def entries(folder):
    """The names in a folder; none where it isn't there."""
    return sorted(os.listdir(folder)) if os.path.isdir(folder) else []


def stored(store, place):
    """The bytes at each address of a place, `files` or `listings`."""
    found = {}
    top = os.path.join(store, place)
    for shard in entries(top):
        for name in entries(os.path.join(top, shard)):
            with open(os.path.join(top, shard, name), "rb") as file:
                found[shard + name] = file.read()
    return found


def misplaced(found):
    """What isn't at its own digest."""
    digests = {at: hashlib.sha512(data).hexdigest() for at, data in found.items()}
    return [f"at {at} is what has the digest {digest}" for at, digest in digests.items() if at != digest]


def numbers_wrong(store, killed):
    """Numbers that are left of more installers than were killed."""
    numbers = entries(os.path.join(store, "tmp"))
    return [f"{len(numbers)} numbers are left, of {killed} installers that were killed"] if len(numbers) > killed else []


def damage(store, rnd, sizes):
    """Changes each third file that is stored."""
    top = os.path.join(store, "files")
    for shard in entries(top)[::3]:
        for name in entries(os.path.join(top, shard)):
            with open(os.path.join(top, shard, name), "wb") as file:
                file.write(rnd.randbytes(rnd.choice(sizes)))
