"""What demo_accounts prints, and what its logs have to have by it."""
import re

TELLERS = 4

# The transfers of a teller on one day.
TRANSFERS = 64

HEAD = re.compile(r"teller ([1-4]): (\d+) records")
RECORD = re.compile(r"  ([0-9a-f]{16}) in doubt when the last run ended: commit at stores [123](?:, [123])*")
REST = "  the stores were in memory: nothing is left to tell them, and all are forgotten"
EVENT = re.compile(r"(committed|forgotten|undecided) ([1-4]) ([0-9a-f]{16})")


class Wrong(Exception):
    """What a run did that it mustn't."""


def read_list(lines, place):
    """What each teller's log has, as a run tells it from this place of its lines on, and the place after that."""
    listed = {}
    for teller in range(1, TELLERS + 1):
        head = HEAD.fullmatch(lines[place])
        if not head or int(head[1]) != teller:
            raise Wrong(f"not the head of teller {teller}: {lines[place]!r}")
        count, place = int(head[2]), place + 1
        found = [RECORD.fullmatch(line) for line in lines[place:place + count]]
        if len(found) != count or not all(found):
            raise Wrong(f"not {count} records of teller {teller}")
        listed[teller], place = [record[1] for record in found], place + count
        if count:
            if lines[place] != REST:
                raise Wrong(f"not the end of teller {teller}'s records: {lines[place]!r}")
            place += 1
        if len(set(listed[teller])) != count:
            raise Wrong(f"teller {teller} lists a transaction twice")
    return listed, place


class Told:
    """What the runs of a folder have told of each teller: the records that its log has to have, and all that it may
    have, by name."""

    def __init__(self):
        tellers = range(1, TELLERS + 1)
        self.kept, self.known = {t: set() for t in tellers}, {t: set() for t in tellers}
        # How many records were found again.
        self.found = 0

    def listed(self, listed, days):
        """Compares what a run lists at its start with what was told, and gives what is missing of each teller. All is
        forgotten then."""
        missing = []
        for teller, names in listed.items():
            for name in names:
                if int(name[:8], 16) != teller or int(name[8:], 16) >= days * TRANSFERS:
                    raise Wrong(f"teller {teller} never began {name}")
            unknown = set(names) - self.known[teller]
            if len(unknown) > 1:
                raise Wrong(f"teller {teller} lists {sorted(unknown)}, of which it had printed nothing")
            self.found += len(self.kept[teller] & set(names))
            missing += [(teller, name) for name in sorted(self.kept[teller] - set(names))]
            self.kept[teller], self.known[teller] = set(), self.known[teller] | set(names)
        return missing

    def told(self, lines):
        """Takes in what a run told as it worked."""
        for line in lines:
            event = EVENT.fullmatch(line)
            if not event:
                raise Wrong(f"not a line that it may print: {line!r}")
            what, teller, name = event[1], int(event[2]), event[3]
            self.known[teller].add(name)
            if what == "committed":
                self.kept[teller].add(name)
            elif what == "forgotten":
                self.kept[teller].discard(name)
