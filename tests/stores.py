"""Counts the stores to each entry of the rooms that host/stores tells of, for tests/stores.test.sh.

stores.py judge TOLD LIST   TOLD is what host/stores printed, LIST has the stores that valgrind's lackey listed: whether the library stores no entry of an
                            answer more often than it may, the counter finds of both stand-ins what they made, and the plain one is found to store every
                            entry before the first fault again
stores.py self              whether the counter finds what is known of a short list
"""
import sys


class Room:
    """A room of one call: how many entries stand before the first fault, how often each byte was stored, and how often the entries of the answer may be."""

    def __init__(self, name, address, size, before, answer, stated):
        self.name = name
        self.begin = int(address, 16)
        self.size = int(size)
        self.before = int(before)
        self.answer = int(answer)
        self.end = self.begin + self.size * int(stated)
        self.bytes = [0] * (self.end - self.begin)
        self.most = self.made = None

    def stored(self, address, size):
        """Notes a store of so many bytes, of which some may lie outside."""
        for i in range(max(address, self.begin), min(address + size, self.end)):
            self.bytes[i - self.begin] += 1

    def stores(self):
        """How often each entry was stored: as often as that of its bytes that was stored most often."""
        return [max(self.bytes[i : i + self.size]) for i in range(0, len(self.bytes), self.size)]


class Call:
    """One call: who made it, on what, and its rooms."""

    def __init__(self, by, options, mesh):
        self.by = by
        self.mesh = "%s, options %s" % (mesh, options)
        self.rooms = []


def read_told(lines):
    """The addresses of the two marks, and the calls."""
    marks, calls = None, []
    for line in lines:
        kind, *words = line.split()
        if kind == "marks":
            marks = int(words[0], 16), int(words[1], 16)
        elif kind == "call":
            calls.append(Call(words[0], words[1], " ".join(words[2:])))
        elif kind == "room":
            calls[-1].rooms.append(Room(*words))
        elif kind == "most":
            calls[-1].rooms[-1].most = [int(digit) for digit in words[0]]
        elif kind == "made":
            calls[-1].rooms[-1].made = [int(digit) for digit in words[0]]
        else:
            raise ValueError("a line that host/stores does not print: " + line)
    return marks, calls


def count(lines, marks, calls):
    """Adds each store of lackey's list to the rooms of the call between whose marks it stands. Returns how many calls were begun and ended."""
    began, ended = marks
    number, inside, rooms = 0, False, []
    for line in lines:
        # ` S 1ffefff9e8,8` is a store, ` M 1ffefff9e8,8` one that reads the same bytes first.
        if line[:3] not in (" S ", " M "):
            continue
        address, size = line[3:].split(",")
        address, size = int(address, 16), int(size)
        if size == 1 and not inside and address == began:
            inside = True
            rooms = calls[number].rooms if number < len(calls) else []
        elif size == 1 and inside and address == ended:
            inside = False
            number += 1
        elif inside:
            for room in rooms:
                if address < room.end and address + size > room.begin:
                    room.stored(address, size)
    return number if not inside else -1


def faults(room):
    """The entries of the answer that were stored too often, or never, how often that was, and how often is right at most: once before the first fault."""
    stores = room.stores()
    most = [1] * room.before + room.most[room.before :]
    return [(i, stores[i], most[i]) for i in range(room.answer) if not 1 <= stores[i] <= most[i]]


def figures(room):
    """A few words on how often the entries of a room were stored."""
    stores = room.stores()
    answer, beyond = stores[: room.answer], stores[room.answer :]
    words = "%s %.2f times, at most %d" % (room.name, sum(answer) / len(answer), max(answer))
    if beyond:
        words += ", beyond the answer %.2f, at most %d" % (sum(beyond) / len(beyond), max(beyond))
    return words


def judge_library(call):
    """Prints how often the library stored the entries, and which of them it stored too often. Whether there is none."""
    print("stores: %s: %s" % (call.mesh, "; ".join(figures(room) for room in call.rooms)))
    good = True
    for room in call.rooms:
        found = faults(room)
        good = good and not found
        for i, stores, most in found[:1]:
            print("stores:   wrong entries of the %s: %d, the first is %d, stored %d times; at most %d is right" % (room.name, len(found), i, stores, most))
    return good


def judge_stand_in(call):
    """Whether the counter finds what a stand-in made: of the plain one that every entry of a face before the first fault was stored again."""
    good = True
    for room in call.rooms:
        stores = room.stores()
        if stores[: room.answer] != room.made:
            print("stores: %s, %s: other stores to the %s are counted than were made" % (call.mesh, call.by, room.name))
            good = False
        if call.by == "sparing" and faults(room):
            print("stores: %s, %s: stores to the %s are counted that are too many" % (call.mesh, call.by, room.name))
            good = False
        if call.by == "plain" and (room.before == 0 or min(stores[: room.before]) < 2):
            print("stores: %s, %s: of the %s before the first fault not all are found stored again" % (call.mesh, call.by, room.name))
            good = False
    return good


def judge(told, listed):
    marks, calls = read_told(open(told))
    counted = count(open(listed), marks, calls)
    if counted != len(calls) or not calls:
        print("stores: host/stores told of %d calls, and lackey listed %d" % (len(calls), counted))
        return False
    verdicts = [judge_library(call) if call.by == "library" else judge_stand_in(call) for call in calls]
    for by in "library", "sparing", "plain":
        if not any(call.by == by for call in calls):
            print("stores: no call by %s" % by)
            return False
    print("stores: %d calls, %d not as they must be" % (len(calls), verdicts.count(False)))
    return all(verdicts)


def self_test():
    """A short list whose counts are known: stores of several sizes, some across the ends of a room, some outside of the marks."""
    told = ["marks 10 11", "call library 1 one", "room faces 1000 4 2 6 8", "most 111111", "call library 1 two", "room faces 1000 4 3 6 8", "most 113222"]
    listed = [
        "==1== Lackey, an example Valgrind tool",
        "I  00401000,4",
        " S 1000,4",  # before the first call
        " S 10,8",  # no mark: eight bytes
        " S 11,1",  # no mark: nothing has begun
        " S 10,1",
        " S 1000,16",  # entries 0 to 3
        " L 1000,16",
        " S 1010,8",  # entries 4 and 5
        " S 1014,2",  # entry 5, a half of it
        " S 1016,2",  # and the other half
        " M 1001,1",  # entry 0 again, one byte of it
        " S 0fff,2",  # its first byte, from before the room
        " S 101c,8",  # entry 7, to beyond the room
        " S 2000,32",
        " S 11,1",
        " S 1004,4",  # between the calls
        " S 10,1",
        " S 0ff0,32",  # entries 0 to 3, from before the room
        " M 1008,4",  # entry 2
        " S 11,1",
    ]
    marks, calls = read_told(told)
    counted = count(listed, marks, calls)
    found = [call.rooms[0].stores() for call in calls]
    wanted = [[2, 1, 1, 1, 1, 2, 0, 1], [1, 1, 2, 1, 0, 0, 0, 0]]
    blamed = [faults(call.rooms[0]) for call in calls]
    known = [[(0, 2, 1), (5, 2, 1)], [(2, 2, 1), (4, 0, 2), (5, 0, 2)]]
    if counted == 2 and found == wanted and blamed == known:
        return True
    print("stores: of the short list %d calls were counted, %s stores and %s faults; right are 2, %s and %s" % (counted, found, blamed, wanted, known))
    return False


if __name__ == "__main__":
    if sys.argv[1:] == ["self"]:
        sys.exit(not self_test())
    if len(sys.argv) == 4 and sys.argv[1] == "judge":
        sys.exit(not judge(*sys.argv[2:]))
    sys.exit(__doc__)
