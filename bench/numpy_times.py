"""Times of NumPy on the cases of src/cases.rs that it has a function for: a line for each, with the case's names and nanoseconds a call.

bench/run calls it where NumPy is installed. Elements are other random ones than the program's; shapes, axes and amounts are the same.
"""
import time
import numpy as np

RANDOM = np.random.default_rng(1)
SHAPES = [(30, 10, 5), (32, 16, 32), (16384,)]
NAMES = {1: ["only axis"], 3: ["first axis", "middle axis", "last axis"]}


def placed(a, quarter):
    """A copy that starts at a quarter of a page, as the program's buffers do: operands at 1 and 2, results at 3."""
    room = np.empty(a.nbytes + 8192, np.uint8)
    start = -room.ctypes.data % 4096 + quarter * 1024
    copy = room[start : start + a.nbytes].view(a.dtype).reshape(a.shape)
    copy[...] = a
    return copy


def array(shape):
    return placed(RANDOM.integers(0, 2**31, shape, dtype=np.int32), 2)


def result(shape):
    return placed(np.zeros(shape, np.int32), 3)


def best(work):
    calls = 1
    while (took := batch(work, calls)) < 40e-6:
        calls *= 2
    end = time.perf_counter() + 0.1
    while time.perf_counter() < end:
        took = min(took, batch(work, calls))
    return took / calls * 1e9


def batch(work, calls):
    start = time.perf_counter()
    for _ in range(calls):
        work()
    return time.perf_counter() - start


def say(primitive, shape, case, work):
    print(primitive, " x ".join(map(str, shape)), case, f"{best(work):.1f}", sep="\t")


def along(shape, axis):
    """The primitives that look at an axis."""
    n, name = shape[axis], NAMES[len(shape)][axis]
    r, out = array(shape), result(shape)
    part = lambda a, start, stop: a[(slice(None),) * axis + (slice(start, stop),)]
    say("14 reverse", shape, name, lambda: np.copyto(out, np.flip(r, axis)))
    half = part(r, 0, n // 2)
    l, r2 = placed(half, 1), placed(half, 2)
    joined = result(np.concatenate((half, half), axis).shape)
    say("22 catenate", shape, f"{name}, two halves", lambda: np.concatenate((l, r2), axis, out=joined))
    taken = result(part(r, 0, n * 2 // 3).shape)
    say("23 take", shape, f"{name}, two thirds", lambda: np.copyto(taken, part(r, 0, n * 2 // 3)))
    left = result(part(r, n // 3, n).shape)
    say("24 drop", shape, f"{name}, a third", lambda: np.copyto(left, part(r, n // 3, n)))
    for amount in (1, max(2, n // 3), -1):
        say("25 rotate", shape, f"{name}, by {amount}", lambda: np.roll(r, -amount, axis))
    masks = {"all ones": np.ones(n, bool), "alternating": np.arange(n) % 2 == 0, "random": RANDOM.integers(0, 2, n) == 1}
    for what, mask in masks.items():
        kept = result(np.compress(mask, r, axis).shape)
        say("27 compress", shape, f"{name}, {what}", lambda: np.compress(mask, r, axis, out=kept))
    positions = RANDOM.integers(0, n, n)
    say("31 select", shape, f"{name}, random positions", lambda: np.take(r, positions, axis, out=out, mode="clip"))
    second = np.arange(0, n, 2)
    chosen = result(np.take(r, second, axis).shape)
    say("31 select", shape, f"{name}, every second position", lambda: np.take(r, second, axis, out=chosen, mode="clip"))


def transposes():
    for shape in SHAPES + [(128, 128), (4,) * 7]:
        r, out = array(shape), result(shape[::-1])
        say("15 transpose", shape, "", lambda: np.copyto(out, r.T))
    for shape in SHAPES[:2]:
        for sent in [(1, 3, 2), (2, 1, 3), (2, 3, 1), (3, 1, 2)]:
            r = array(shape)
            moved = r.transpose([sent.index(t) for t in (1, 2, 3)])
            out = result(moved.shape)
            say("26 transpose by", shape, "by " + " ".join(map(str, sent)), lambda: np.copyto(out, moved))


def first_position(within, wanted):
    """Sorting, as np.unique does it: NumPy has no index of."""
    order = np.argsort(within, kind="stable")
    at = np.searchsorted(within, wanted, sorter=order)
    found = order.take(at, mode="clip")
    return np.where(within[found] == wanted, found + 1, len(within) + 1)


def lookups():
    for shape in [(30, 10, 5), (16384,)]:
        n = int(np.prod(shape))
        for what, within, wanted in [
            ("random", RANDOM.integers(0, n, n, dtype=np.int32), RANDOM.integers(0, n, n, dtype=np.int32)),
            ("random, wide", array(n), array(n)),
            ("in order", np.arange(n, dtype=np.int32), np.arange(n, dtype=np.int32)),
            ("all alike", np.full(n, 7, np.int32), np.full(n, 7, np.int32)),
        ]:
            say("29 index of", shape, what, lambda: first_position(within, wanted))
            say("30 member", shape, what, lambda: np.isin(wanted, within))


for lengths in SHAPES:
    source, target = array(lengths), result(lengths)
    say("12 ravel", lengths, "", lambda: np.copyto(target, source))
    say("13 interval", lengths, "", lambda: np.arange(1, source.size + 1, dtype=np.int32))
    say("21 reshape", lengths, "of 30 repeated", lambda: np.resize(source.ravel()[:30], lengths))
    for k in range(len(lengths)):
        along(lengths, k)
transposes()
lookups()
