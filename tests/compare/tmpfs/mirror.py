"""Does the same at random on two sides, shrinks what differs, and reports it: for tests/compare/test_tmpfs.py.

    mirror.py calls KIND SEED COUNT KNOWN FOLDER BESIDE
    mirror.py requests KIND SEED COUNT KNOWN LIBRARY BESIDE"""
import fnmatch
import random
import sys
import time
from collections import Counter

import calls
import requests

# How many differences that aren't known it looks for, before it ends.
MOST = 8


class Mirror:
    """Random sessions of two sides, what is known to differ, and what is not."""
    def __init__(self, way, kind, known, places):
        """`known` are the differences that are no faults, `came` counts what operations came to, and `unknown` has
        the differences.
        """
        self.way, self.places = {"calls": calls, "requests": requests}[way], places
        # (of the kind with its words, as `fuse.nizwarf writeback`, or of the kind alone)
        self.known = [line for line in known if any(fnmatch.fnmatchcase(it, line[0]) for it in (kind, kind.split()[0]))]
        self.came, self.unknown = Counter(), {}
        self.sessions = 0

    def reason(self, what):
        """The row of what is known that this difference fits, or None."""
        for _, pattern, why in self.known:
            if fnmatch.fnmatchcase(what, pattern):
                return f"{pattern} | {why}"
        return None

    def session(self):
        """A new session, in folders of its own: what one did is not there in the next."""
        self.sessions += 1
        return self.way.Session(self.places, self.sessions)

    def new(self, found):
        """Counts what is known, and hands back the rest."""
        rest = []
        for what in found:
            if reason := self.reason(what):
                self.came[reason] += 1
            else:
                rest.append(what)
        return rest

    def run(self, seed, count):
        """Random sessions, until that many operations were asked."""
        asked, began, told = 0, time.monotonic(), time.monotonic()
        while asked < count and len(self.unknown) < MOST:
            # (so each session is made of the seed and its place, whatever those before came to)
            chance = random.Random(f"{seed} {asked}")
            operations = [self.way.generate(chance) for _ in range(min(self.way.Session.LENGTH, count - asked))]
            done, what = self.try_all(operations)
            asked += done
            if what and what not in self.unknown:
                print(f"{what}: shrinking what came to it ..", file=sys.stderr, flush=True)
                self.unknown[what] = self.shrink(operations[:done], what)
            if time.monotonic() - told > 10:
                told = time.monotonic()
                rate = asked / (told - began)
                print(f"{asked} of {count} operations, {rate:.0f} in a second", file=sys.stderr, flush=True)
        return asked

    def try_all(self, operations):
        """How many were asked, and what differed that isn't known, if anything did."""
        session = self.session()
        try:
            for at, operation in enumerate(operations, 1):
                if new := self.new(session.step(operation)):
                    return at, new[0]
                # (a look at all takes long)
                if at % 300 == 0 and (new := self.new(session.check())):
                    return at, new[0]
            new = self.new(session.check()) or self.new(session.finish())
            return len(operations), new[0] if new else None
        finally:
            session.end()

    def differs(self, operations, what):
        """Whether these operations still come to that difference first, of those that are not known."""
        session = self.session()
        try:
            for operation in operations:
                if what in (found := [of for of in session.step(operation) if not self.reason(of)]):
                    return True
                if found:
                    return False
            return what in session.check() or what in session.finish()
        finally:
            session.end()

    def shrink(self, operations, what):
        """The smallest part of them that still differs so, as far as leaving out pieces finds it."""
        if not self.differs(operations, what):
            return None
        # Halves first, then quarters, down to single operations.
        size = len(operations) // 2
        while size:
            at = 0
            while at < len(operations):
                shorter = operations[:at] + operations[at + size:]
                if shorter and self.differs(shorter, what):
                    operations = shorter
                else:
                    at += size
            size //= 2
        return operations

    def report(self, asked):
        """Prints what came."""
        print(f"{asked} operations in {self.sessions} sessions.")
        print("Known differences, and how often they came:")
        for _, pattern, why in self.known:
            print(f"{self.came[f'{pattern} | {why}']:9}  {pattern}: {why}")
        for what, operations in self.unknown.items():
            print(f"\nFAULT  {what}")
            if operations is None:
                print("    (it did not come again)")
            for operation in operations or []:
                print(f"    {self.way.shown(operation)}")
        print(f"{len(self.unknown)} differences that are not known.")


def main():
    """Asks by the words of the command. Status 1: something differs that isn't known."""
    way, kind, seed, count, known, *places = sys.argv[1:]
    with open(known, encoding="utf-8") as lines:
        known = [tuple(map(str.strip, line.split("|", 2))) for line in lines if line.strip() and line[0] != "#"]
    mirror = Mirror(way, kind, known, places)
    mirror.report(mirror.run(seed, int(count)))
    return 1 if mirror.unknown else 0


if __name__ == "__main__":
    sys.exit(main())
