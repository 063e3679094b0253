"""Digests that meet in a hash table: the search for digests whose hashes, by the library's hasher with its fixed seed,
all begin at one group. Nothing of the program looks digests up by that hash; bench/hostile shows what such feeds cost.
"""
import multiprocessing
import os
import random

MASK = (1 << 64) - 1
SEED = 0x243F_6A88_85A3_08D3
MULTIPLIER = 0x9E37_79B9_7F4A_7C15
# A table of up to 73,728 entries has at most 2^13 groups, and a hash begins at the group of its lowest bits.
GROUP_BITS = 13
MOST = 9 << GROUP_BITS
KEPT = os.path.join(os.path.dirname(os.path.dirname(os.path.abspath(__file__))), "out", "meeting_digests")


def stirred(state, short, length):
    """The state after a write of at most 8 bytes, which make the number `short`."""
    product = (state ^ short) * (MULTIPLIER ^ 2 * length)
    return (product ^ product >> 64) & MASK


def folded(state):
    """The lowest bits of the 32 that a table takes of a hash."""
    return (state ^ state >> 32) & ((1 << GROUP_BITS) - 1)


def state_after(start):
    """The state after the length of a digest and these first bytes of it, each of which is a write of its own."""
    state = stirred(SEED, 32, 8)
    for byte in start:
        state = stirred(state, byte * 0x01_01_01, 1)
    return state


def search(task):
    """This many digests that begin at group 0, from this seed on: all last bytes of random starts are tried."""
    seed, count = task
    draw = random.Random(seed)
    last = [byte * 0x01_01_01 for byte in range(256)]
    low, factor = (1 << GROUP_BITS) - 1, MULTIPLIER ^ 2
    found = []
    while len(found) < count:
        begun = draw.randbytes(30)
        before = state_after(begun)
        for middle in range(256):
            state = stirred(before, last[middle], 1)
            for byte in range(256):
                product = (state ^ last[byte]) * factor
                end = (product ^ product >> 64) & MASK
                if (end ^ end >> 32) & low == 0:
                    found.append(begun + bytes((middle, byte)))
    return found[:count]


def digests(count):
    """This many digests that meet. The search takes minutes, and what it finds is kept in out/."""
    if count > MOST:
        raise ValueError(f"at most {MOST} digests meet")
    if not os.path.exists(KEPT):
        jobs = os.cpu_count() or 1
        with multiprocessing.Pool(jobs) as pool:
            parts = pool.map(search, [(seed, -(-MOST // jobs)) for seed in range(jobs)])
        os.makedirs(os.path.dirname(KEPT), exist_ok=True)
        with open(KEPT + ".part", "wb") as out:
            out.write(b"".join(digest for part in parts for digest in part))
        os.replace(KEPT + ".part", KEPT)
    with open(KEPT, "rb") as kept:
        data = kept.read(32 * count)
    return [data[at : at + 32] for at in range(0, len(data), 32)]
