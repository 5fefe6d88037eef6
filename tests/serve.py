"""Compares a store that `lsmctl serve` holds with a dict, line by line, with tags and without, and measures it.

    serve.py compare PROGRAM FILE LINES     random lines beside a dict with snapshots; a kill in the middle, and a second start
    serve.py speed PROGRAM FILE             gets that are sent at once, and one after another, and by the Python client

The lines are sent as they stand. The Python client has tests of its own (tests/python.sh).
"""
import os
import random
import signal
import subprocess
import sys
import threading
import time

sys.path.insert(0, os.path.join(os.path.dirname(os.path.abspath(__file__)), "..", "clients", "python", "src"))
from corwaphi import Store  # noqa: E402


class Served:
    """A run of `lsmctl serve`."""

    def __init__(self, file, program):
        self.process = subprocess.Popen([program, "serve", file], stdin=subprocess.PIPE, stdout=subprocess.PIPE)

    def __enter__(self):
        return self

    def __exit__(self, kind, *_):
        self.process.stdin.close()
        status = self.process.wait()
        if kind is None and status != 0:
            sys.exit(f"serve.py: it ends with {status}")


def word(data):
    return data.hex() or "empty"


class Lines:
    """Random lines, with the reply that a dict gives to each."""

    def __init__(self, seed, batches, now):
        self.random = random.Random(seed)
        self.batches, self.now, self.number = batches, dict(now), 0
        self.taken, self.live = 0, {}
        self.history = [(batches, {})]  # the changes of each batch, by its number

    def key(self):
        return b"k%02d" % self.random.randrange(80)

    def value(self):
        return self.random.randbytes(self.random.choice([0, 1, 5, 40, 300, 1500]))

    def place(self):
        """The present map, or that of a live snapshot, and how a line names it."""
        if self.live and self.random.random() < 0.4:
            number = self.random.choice(list(self.live))
            return self.live[number], f" @{number}"
        return self.now, ""

    def changes(self):
        return [(self.key(), self.value() if self.random.random() < 0.75 else None) for _ in range(self.random.randrange(1, 12))]

    def committed(self, changes):
        self.batches += 1
        for key, value in changes:
            if value is None:
                self.now.pop(key, None)
            else:
                self.now[key] = value
        self.history.append((self.batches, dict(changes)))
        return f"batch {self.batches}"

    def guarded(self):
        guards = [(self.key(), None) for _ in range(self.random.randrange(3))]
        guards = [(key, self.now.get(key) if self.random.random() < 0.8 else b"no") for key, _ in guards]
        changes = self.changes()
        words = [f"!{word(key)}" if value is None else f"?{word(key)}={word(value)}" for key, value in guards]
        line = " ".join(["if", *words, "then", *self.spelled(changes)])
        for place, (key, value) in enumerate(guards):
            if self.now.get(key) != value:
                return line, f"refused 30 GuardFailed {place}"
        return line, self.committed(changes)

    def spelled(self, changes):
        return [f"-{word(key)}" if value is None else f"+{word(key)}={word(value)}" for key, value in changes]

    def scanned(self):
        rows, at = self.place()
        first, last = sorted([self.key(), self.key()])
        limit = self.random.randrange(1, 20)
        found = sorted((key, value) for key, value in rows.items() if first <= key < last)
        reply = "rows " + "".join(f"{word(key)}={word(value)} " for key, value in found[:limit])
        reply += f"next {word(found[limit][0])}" if len(found) > limit else "end"
        return f"scan {word(first)} {word(last)} {limit}{at}", reply

    def wrong(self):
        """A line that asks for nothing. That it is told is looked at here, and by which words in serve.sh."""
        return self.random.choice(["rotate", "nonsense", "", "get 6", "get 61 ", "#get 61", "x" * 300001]), f"usage {self.number}: "

    def next(self):
        """The next line, and its reply. Some lines have a tag, which the reply repeats."""
        self.number += 1
        line, reply = self.untagged()
        if self.random.random() < 0.5:
            tag = f"#{self.random.randrange(10 ** self.random.randrange(1, 21))} "
            return tag + line, tag + reply
        return line, reply

    def untagged(self):
        choice = self.random.random()
        if choice < 0.35:
            rows, at = self.place()
            key = self.key()
            return f"get {word(key)}{at}", f"value {word(rows[key])}" if key in rows else "absent"
        if choice < 0.65:
            changes = self.changes()
            return " ".join(["commit", *self.spelled(changes)]), self.committed(changes)
        if choice < 0.75:
            return self.guarded()
        if choice < 0.90:
            return self.scanned()
        if choice < 0.93 and len(self.live) < 20:
            self.taken += 1
            self.live[self.taken] = dict(self.now)
            return "snapshot", f"snapshot {self.taken}"
        if choice < 0.96 and self.live:
            number = self.random.choice(list(self.live))
            del self.live[number]
            return f"release {number}", "ok"
        if choice < 0.99:
            return "sync", "ok"
        return self.wrong()


def send(store, lines):
    try:
        store.process.stdin.write("".join(line + "\n" for line in lines).encode())
        store.process.stdin.flush()
    except OSError:
        pass  # It was killed.


def ask_all(store, lines):
    """The replies to lines that are sent without a wait for the replies to those before."""
    threading.Thread(target=send, args=(store, lines), daemon=True).start()
    for _ in lines:
        reply = store.process.stdout.readline().decode()
        if not reply.endswith("\n"):
            return
        yield reply[:-1]


def answered(store, model, count, stop=None):
    """Asks so many lines, and compares the replies; after `stop` of them the program is killed. Gives the number of the last batch that was synced."""
    synced = model.batches
    asked = 0
    while asked < count:
        model.first = model.number + 1
        pairs = [model.next() for _ in range(min(200, count - asked))]
        batches = model.batches
        for place, reply in enumerate(ask_all(store, [line for line, _ in pairs])):
            line, expected = pairs[place]
            if reply != expected and not (expected.endswith(f"usage {model.first + place}: ") and reply.startswith(expected)):
                sys.exit(f"serve.py: line {asked + place + 1}: {line[:200]!r} was answered {reply[:200]!r}, not {expected[:200]!r}")
            if " batch " in f" {reply}":
                batches = int(reply.split()[-1])
            if line.split(" ")[-1] == "sync":
                synced = batches
            if stop is not None and asked + place + 1 == stop:
                os.kill(store.process.pid, signal.SIGKILL)
                return synced
        asked += len(pairs)
    return synced


def compare(program, file, count):
    with Served(file, program) as store:
        model = Lines(1, 0, {})
        answered(store, model, count // 2)
    # All is synced at the end. The second start is killed somewhere within a batch of lines, and the third finds what was synced.
    store = Served(file, program)
    model = Lines(2, model.batches, model.now)
    begun = dict(model.now)
    synced = answered(store, model, count, stop=count // 2 + 37)
    store.process.communicate()
    with Store.open(file, program=program) as store:
        found = dict(store.items())
        batches = store.stat().batches
        if not synced <= batches <= model.batches:
            sys.exit(f"serve.py: {batches} batches after a kill, where {synced} were synced and {model.batches} asked for")
        for number, changes in model.history:
            if number <= batches:
                begun.update(changes)
        expected = {key: value for key, value in begun.items() if value is not None}
        if found != expected:
            sys.exit(f"serve.py: after a kill the store has another map than after {batches} batches")
    print(f"serve.py: {count} lines, {batches} batches, {len(found)} keys after a kill: as a dict")


def speed(program, file):
    chosen = random.Random(3)
    keys = [b"%05d" % chosen.randrange(10000) for _ in range(100000)]
    lines = [f"get {word(key)}" for key in keys]
    with Served(file, program) as store:
        for first in range(0, 10000, 100):
            ask_one(store, "commit " + " ".join(f"+{word(b'%05d' % key)}=76616c7565" for key in range(first, first + 100)))
        at_once = seconds(lambda: [reply for reply in ask_all(store, lines) if reply != "value 76616c7565"])
        one_by_one = seconds(lambda: [line for line in lines[:20000] if ask_one(store, line) != "value 76616c7565"])
    used = os.times()
    print(f"100,000 gets at once: {at_once:.2f} s, of which the program took {used.children_user + used.children_system:.2f} s in all; "
          f"one after another: {one_by_one / 20000 * 1e6:.1f} us each")
    with Store.open(file, program=program) as store:
        calls = store.pipeline()
        for key in keys:
            calls.get(key)
        at_once = seconds(lambda: [value for value in calls.run() if value != b"value"])
        one_by_one = seconds(lambda: [key for key in keys[:20000] if store.get(key) != b"value"])
    print(f"by the client: 100,000 gets of a pipeline: {at_once:.2f} s; one after another: {one_by_one / 20000 * 1e6:.1f} us each")


def ask_one(store, line):
    store.process.stdin.write(line.encode() + b"\n")
    store.process.stdin.flush()
    return store.process.stdout.readline().decode().rstrip("\n")


def seconds(work):
    """How long work takes that gives nothing if all is right."""
    begun = time.perf_counter()
    if work():
        sys.exit("serve.py: a get has another value")
    return time.perf_counter() - begun


if __name__ == "__main__":
    if sys.argv[1] == "speed":
        speed(*sys.argv[2:4])
    else:
        compare(sys.argv[2], sys.argv[3], int(sys.argv[4]))
