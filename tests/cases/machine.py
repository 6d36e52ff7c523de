"""A second coordinator, written from docs/RULES.md and docs/FORMATS.md alone.

It says what `route`, `script` and `replay` have to answer. It keeps the plan as a list and looks
everything up in it.
"""

import heapq
import re
from collections import namedtuple

from reference import BAD_BYTE, Bad, Reader, before_comment, require

CAP = 1_000_000
MOST = 100_000_000  # entries and what is owed, over all segments
NUMBER = re.compile(rb"0|[1-9][0-9]{0,14}")
Event = namedtuple("Event", "number robot kind what")  # kind acquire, move or release; what claim or (from, to)


class Refused(Exception):
    """The answer line of a refused call."""


class Site:
    def __init__(self, reader):
        self.cells = reader.of_kind("cell")
        self.names = list(self.cells)
        self.groups = list(range(len(self.cells)))
        self.alone = [True] * len(self.cells)
        self.footprints = [[cell] for cell in range(len(self.cells))]
        for name, crossing in zip(reader.of_kind("crossing"), reader.crossings):
            flows = [set(flow) for flow in crossing["flows"]]
            rest = set(crossing["cells"]) - set().union(*flows)
            parts = flows + [rest] if rest else flows
            group = len(self.names)
            for number, part in enumerate(parts):
                for cell in part:
                    self.footprints[cell].append(len(self.names))
                self.names.append(name + b":%d" % number if flows else name)
                self.groups.append(group)
                self.alone.append(not flows)
        self.links = {cell: [] for cell in range(len(self.cells))}
        for (start, end), cost in sorted(reader.links.items()):
            self.links[start].append((end, cost))

    def conflict(self, one, other):
        return self.groups[one] == self.groups[other] and (one != other or self.alone[one])

    def clash(self, one, other):
        """Whether the footprints of two cells conflict."""
        return any(self.conflict(a, b) for a in self.footprints[one] for b in self.footprints[other])

    def linked(self, start, end):
        return any(to == end for to, _ in self.links[start])

    def steps(self, cells):
        for start, end in zip(cells, cells[1:]):
            before, behind = self.footprints[start], self.footprints[end]
            yield from (("acquire", claim) for claim in behind if claim not in before)
            yield ("move", (start, end))
            yield from (("release", claim) for claim in before if claim not in behind)

    def labels(self, goal, avoid):
        """For each cell from which a walk leads to the goal the least cost of one."""
        into = {cell: [] for cell in self.links}
        for start, ends in self.links.items():
            for end, cost in ends:
                into[end].append((start, cost))
        best, heap = {}, [(0, cell) for cell in goal if cell not in avoid]
        while heap:
            cost, cell = heapq.heappop(heap)
            if cell not in best:
                best[cell] = cost
                for start, more in into[cell]:
                    if start not in avoid:
                        heapq.heappush(heap, (cost + more, start))
        return best

    def least_route(self, start, goal, avoid):
        best = self.labels(goal, avoid)
        if start not in best:
            return None, best
        cells = [start]
        while cells[-1] not in goal:
            cells.append(min(to for to, cost in self.links[cells[-1]] if best.get(to, -cost - 1) + cost == best[cells[-1]]))
        return cells, best

    def kind(self, kind, what):
        if kind == "move":
            return b"move %s %s" % (self.cells[what[0]], self.cells[what[1]])
        return kind.encode() + b" " + self.names[what]


class Machine:
    def __init__(self, reader, cap=CAP):
        self.site = Site(reader)
        self.robots = reader.of_kind("robot")
        self.starts = list(reader.starts)
        self.cap = cap
        self.plan, self.finished, self.pending = [], set(), {}
        self.next, self.entries = 1, []
        self.marks = [(0, 1)]  # where each segment begins: the number of entries before it, and the next number there

    # what the plan says
    def own(self, robot):
        return [event for event in self.plan if event.robot == robot]

    def unfinished(self, robot):
        return [event for event in self.own(robot) if event.number not in self.finished]

    def after(self, event):
        if event.kind != "acquire":
            return []
        return [
            other
            for other in self.plan
            if other.number < event.number
            and other.robot != event.robot
            and other.kind == "release"
            and self.site.conflict(other.what, event.what)
        ]

    def awaited(self, event):
        return [other for other in self.after(event) if other.number not in self.finished]

    def end(self, robot):
        moves = [event.what[1] for event in self.own(robot) if event.kind == "move"]
        return moves[-1] if moves else self.starts[robot]

    def at(self, robot):
        moves = [it.what[1] for it in self.own(robot) if it.kind == "move" and it.number in self.finished]
        return moves[-1] if moves else self.starts[robot]

    def holds(self, robot):
        held = set(self.site.footprints[self.starts[robot]])
        for event in self.own(robot):
            if event.number in self.finished and event.kind != "move":
                (held.add if event.kind == "acquire" else held.remove)(event.what)
        return sorted(held)

    # deferrals
    def blockers(self, robot, cells):
        needs = [what for kind, what in self.site.steps(cells) if kind == "acquire"]
        return sorted(
            (claim, other)
            for other in range(len(self.robots))
            if other != robot
            for kept in self.site.footprints[self.end(other)]
            for claim in set(needs)
            if self.site.conflict(claim, kept)
        )

    def cycle(self, robot):
        on = {it: {other for _, other in self.blockers(it, cells)} for it, cells in self.pending.items()}
        paths = [[robot]]
        while paths:
            closed = sorted(path for path in paths if robot in on.get(path[-1], ()))
            if closed:
                return closed[0]
            paths = [path + [to] for path in paths for to in sorted(on.get(path[-1], ())) if to not in path]
            # of paths to one robot of one length the least alone can become the least cycle
            paths = list({path[-1]: path for path in sorted(paths, reverse=True)}.values())
        return []

    def block(self, robot, cells):
        """The words that name the least blocker and the cycle; None where there is no blocker."""
        found = self.blockers(robot, cells)
        if not found:
            return None, []
        claim, by = found[0]
        cycle = self.cycle(robot)
        words = b"%s %s" % (self.site.names[claim], self.robots[by])
        return words + (b" cycle" + self.named(cycle) if cycle else b""), cycle

    def named(self, robots):
        return b"".join(b" " + self.robots[robot] for robot in robots)

    def cells(self, cells):
        return b"".join(b" " + self.site.cells[cell] for cell in cells)

    # calls: each gives its answer line, and adds its entry
    def room(self, growth):
        """Refuses an outcome that there is no room for. Where the current segment has none, but a new one has, it opens."""
        left, count = len(self.plan) - len(self.finished), len(self.entries)
        owed = left + len(self.pending)
        past = count - self.marks[-1][0] + owed + growth > self.cap
        self.refuse(count + owed + growth > MOST or past and (left or owed + growth > self.cap), b"full")
        if past:
            self.marks.append((count, self.next))

    @staticmethod
    def refuse(cause, words):
        if cause:
            raise Refused(b"refused " + words)

    def merge(self, robot, cells, entry):
        first = self.next
        for kind, what in self.site.steps(cells):
            self.plan.append(Event(self.next, robot, kind, what))
            self.next += 1
        self.pending.pop(robot, None)
        self.entries.append(entry % first)
        return b"merged %d %d" % (first, self.next - 1)

    def propose(self, robot, *cells):
        self.refuse(robot in self.pending, b"pending")
        self.refuse(len(cells) < 2, b"short")
        self.refuse(len(cells) > 1_024, b"long")
        for place in range(1, len(cells)):
            self.refuse(not self.site.linked(cells[place - 1], cells[place]), b"no link %d" % place)
        self.refuse(cells[0] != self.end(robot), b"start " + self.site.cells[self.end(robot)])
        kinds = list(self.site.steps(cells))
        if not self.blockers(robot, cells):
            self.room(1 + len(kinds))
            return self.merge(robot, cells, b"merged " + self.robots[robot] + b" %d" + self.cells(cells))
        self.room(2)
        self.pending[robot] = cells
        words, cycle = self.block(robot, cells)
        self.entries.append(b"deferred %s %d" % (self.robots[robot], len(cycle)) + self.named(cycle) + self.cells(cells))
        return b"deferred " + words

    def retry(self, robot):
        self.refuse(robot not in self.pending, b"no pending")
        cells = self.pending[robot]
        words, _ = self.block(robot, cells)
        if words:
            return b"still " + words
        self.room(len(list(self.site.steps(cells))))
        return self.merge(robot, cells, b"retried " + self.robots[robot] + b" %d")

    def cancel(self, robot):
        self.refuse(robot not in self.pending, b"no pending")
        del self.pending[robot]
        self.entries.append(b"canceled " + self.robots[robot])
        return b"canceled"

    def withdraw(self, robot):
        own = self.own(robot)
        awaited = {other.number for event in self.plan if event.robot != robot for other in self.after(event)}
        kept = len(own)
        while kept and own[kept - 1].number not in self.finished | awaited:
            kept -= 1
        while kept < len(own) and kept and not (own[kept - 1].kind == "release" and own[kept].kind == "acquire"):
            kept += 1
        gone = own[kept:]
        self.refuse(not gone, b"nothing")
        self.plan = [event for event in self.plan if event not in set(gone)]
        self.pending.pop(robot, None)
        end = self.site.cells[self.end(robot)]
        self.entries.append(b"withdrawn %s %d %s" % (self.robots[robot], len(gone), end))
        return b"withdrawn %d %s" % (len(gone), end)

    def replan(self, robot, *goal):
        self.refuse(robot not in self.pending, b"no pending")
        end = self.end(robot)
        self.refuse(end in goal, b"at goal")
        others = [self.end(other) for other in range(len(self.robots)) if other != robot]
        shut = {cell for cell in self.site.links if any(self.site.clash(cell, other) for other in others)}
        cells, _ = self.site.least_route(end, goal, shut)
        self.refuse(cells is None, b"no detour")
        self.room(len(list(self.site.steps(cells))))
        return self.merge(robot, cells, b"replanned " + self.robots[robot] + b" %d" + self.cells(cells))

    def report(self, robot, number):
        left = self.unfinished(robot)
        self.refuse(not left, b"next none")
        self.refuse(left[0].number != number, b"next %d" % left[0].number)
        waits = self.awaited(left[0])
        self.refuse(waits, b"early %d" % max(event.number for event in waits or left))
        self.finished.add(number)
        self.entries.append(b"reported %s %d" % (self.robots[robot], number))
        return b"reported"

    def look(self, robot):
        left, following = self.unfinished(robot), b"none"
        if left:
            waits = self.awaited(left[0])
            following = b"ready %d " % left[0].number + self.site.kind(*left[0][2:])
            if waits:
                following = b"waits %d on %d" % (left[0].number, max(event.number for event in waits))
        pending = b"none"
        if robot in self.pending:
            words, _ = self.block(robot, self.pending[robot])
            pending = b"blocked " + words if words else b"free"
        places = self.site.cells[self.at(robot)], self.site.cells[self.end(robot)], len(left)
        return b"look at %s end %s left %d" % places + b" next " + following + b" pending " + pending

    def answer(self, name, robot, *words):
        try:
            return getattr(self, name)(robot, *words)
        except Refused as refused:
            return refused.args[0]

    # texts
    def journal(self):
        return [b"journal 1", *self.entries, b"end"]

    def state(self):
        lines = [b"state 1", b"entries %d" % len(self.entries), b"next %d" % self.next]
        for robot, name in enumerate(self.robots):
            lines.append(b"robot %s at %s end %s" % (name, self.site.cells[self.at(robot)], self.site.cells[self.end(robot)]))
            lines.append(b"holds" + b"".join(b" " + self.site.names[claim] for claim in self.holds(robot)))
            if robot in self.pending:
                lines.append(b"pending" + self.cells(self.pending[robot]))
            lines += [b"event %d " % it.number + self.site.kind(it.kind, it.what) for it in self.unfinished(robot)]
        return [*lines, b"end"]


def lines_of(text):
    lines = text.split(b"\n")
    return lines[:-1] if lines[-1] == b"" else lines


def text_of(lines):
    return b"".join(line + b"\n" for line in lines)


def without_return(line):
    return line[:-1] if line.endswith(b"\r") else line


def refused_line(number, code):
    return 3, b"refused line %d %s\n" % (number, code.encode())


def front(text):
    """The reader of the scenario that a text begins with, its number of lines and what stands behind; or a refusal."""
    reader, number, used = Reader(), 0, 0
    while not reader.ended and used < len(text):
        feed = text.find(b"\n", used)
        line, used = (text[used:], len(text)) if feed < 0 else (text[used:feed], feed + 1)
        number += 1
        try:
            reader.line(without_return(line))
        except Bad as bad:
            return refused_line(number, str(bad))
    return (reader, number, text[used:]) if reader.ended else refused_line(number + 1, "S22")


# script

COMMANDS = {b"propose": "rc+", b"retry": "r", b"cancel": "r", b"withdraw": "r", b"replan": "rg", b"report": "rd", b"look": "r"}
KINDS = {"r": ("robot",), "c": ("cell",), "g": ("cell", "area")}


def command_of(reader, line):
    """The call that a command line is; None for a blank line."""
    require(len(line) <= 65_536, "C1")
    text = before_comment(line)
    require(not BAD_BYTE.search(text), "C2")
    words = text.split()
    if not words:
        return None
    keyword, words = words[0], words[1:]
    require(keyword in COMMANDS, "C3")
    shape = COMMANDS[keyword]
    least = len(shape.rstrip("+"))
    require(len(words) >= least, "C4")
    require(shape.endswith("+") or len(words) <= least, "C5")
    kinds = shape.rstrip("+").ljust(len(words), shape.rstrip("+")[-1])
    for kind, word in zip(kinds, words):
        require(kind != "d" or re.fullmatch(rb"[0-9]{1,15}", word), "C6")
    values = []
    for kind, word in zip(kinds, words):
        if kind == "d":
            values.append(int(word))
            continue
        require(word in reader.names and reader.names[word][0] in KINDS[kind], "C7")
        its, number = reader.names[word]
        values += sorted(reader.areas[number]) if its == "area" else [number]
    return keyword.decode(), values


def script(text):
    """The status and the output of `script`."""
    if len(text) > 4_194_304:
        return 3, b"refused too big\n"
    begun = front(text)
    if len(begun) == 2:
        return begun
    reader, number, rest = begun
    calls = []
    for line in lines_of(rest):
        number += 1
        try:
            calls.append(command_of(reader, without_return(line)))
        except Bad as bad:
            return refused_line(number, str(bad))
    machine = Machine(reader)
    answers = [machine.answer(name, *values) for name, values in filter(None, calls)]
    return 0, text_of([*answers, *machine.journal(), *machine.state()])


# route

def route(start, goal, text):
    """The status and the output of `route START GOAL`."""
    if len(text) > 4_194_304:
        return 3, b"refused too big\n"
    begun = front(text)
    if len(begun) == 2:
        return begun
    reader, number, rest = begun
    for line in lines_of(rest):
        number += 1
        try:
            reader.line(without_return(line))
        except Bad as bad:
            return refused_line(number, str(bad))
    cells = {name: it for name, (kind, it) in reader.names.items() if kind == "cell"}
    goals = {name: [it] for name, it in cells.items()}
    goals.update((name, reader.areas[it]) for name, (kind, it) in reader.names.items() if kind == "area")
    if start not in cells:
        return 3, b"refused from\n"
    if goal not in goals:
        return 3, b"refused to\n"
    site = Site(reader)
    found, labels = site.least_route(cells[start], goals[goal], ())
    if found is None:
        return 0, b"unreachable\n"
    head = b"route %d" % labels[cells[start]] + b"".join(b" " + site.cells[cell] for cell in found)
    return 0, text_of([head, *(b"label %s %d" % (site.cells[cell], labels[cell]) for cell in sorted(labels))])


# replay

ENTRIES = {b"merged": "rnc+", b"deferred": "rk", b"retried": "rn", b"canceled": "r", b"withdrawn": "rmc", b"replanned": "rnc+", b"reported": "rn", b"end": ""}


def entry_of(reader, line, count):
    """The call that an entry line records; None for the last line."""
    require(len(line) <= 65_536, "J1")
    require(not re.search(rb"[^\x20-\x7e]", line), "J2")
    words = line.split(b" ")
    keyword, words = words[0], words[1:]
    require(keyword in ENTRIES, "J4")
    shape = ENTRIES[keyword]
    if keyword == b"deferred" and len(words) > 1:
        require(NUMBER.fullmatch(words[1]) and int(words[1]) <= 64, "J6")
        shape += "r" * int(words[1]) + "c+"
    least = len(shape.rstrip("+"))
    require(b"" not in words and len(words) >= least, "J5")
    require(shape.endswith("+") or len(words) <= least, "J5")
    require(shape != "rk", "J5")
    kinds = shape.rstrip("+").ljust(len(words), shape.rstrip("+")[-1:] or "-")
    for kind, word in zip(kinds, words):
        require(kind not in "nm" or NUMBER.fullmatch(word), "J6")
        require(kind != "m" or int(word) <= 1_000_000, "J6")
    for kind, word in zip(kinds, words):
        if kind in KINDS:
            require(word in reader.names and reader.names[word][0] in KINDS[kind], "J7")
    require(keyword == b"end" or count < 1_000_000, "J8")
    if keyword == b"end":
        return None
    numbers = [reader.names[word][1] if kind in KINDS else int(word) for kind, word in zip(kinds, words)]
    cells = [number for kind, number in zip(kinds, numbers) if kind == "c"]
    robot = numbers[0]
    return {
        b"merged": ("propose", robot, *cells),
        b"deferred": ("propose", robot, *cells),
        b"retried": ("retry", robot),
        b"canceled": ("cancel", robot),
        b"withdrawn": ("withdraw", robot),
        b"replanned": ("replan", robot, *cells[-1:]),
        b"reported": ("report", robot, numbers[-1]),
    }[keyword]


def replay(text):
    """The status and the output of `replay`."""
    if len(text) > 67_108_864:
        return 3, b"refused too big\n"
    begun = front(text)
    if len(begun) == 2:
        return begun
    reader, number, rest = begun
    first, entries, header = number + 1, [], True
    while True:
        number += 1
        feed = rest.find(b"\n")
        if feed < 0:
            return refused_line(number, "J9")
        line, rest = rest[:feed], rest[feed + 1 :]
        try:
            if header:
                require(len(line) <= 65_536, "J1")
                require(not re.search(rb"[^\x20-\x7e]", line), "J2")
                require(line == b"journal 1", "J3")
                header = False
                continue
            call = entry_of(reader, line, len(entries))
        except Bad as bad:
            return refused_line(number, str(bad))
        if call is None:
            break
        entries.append((call, line))
    machine = Machine(reader)
    for place, (call, line) in enumerate(entries, 1):
        machine.answer(*call)
        if machine.entries[place - 1 :] != [line]:
            return 3, b"refused entry %d\n" % place
    if len(machine.marks) > 1:
        return refused_line(first, "T2")
    state = machine.state()
    if rest not in (b"", text_of(state)):
        wanted, came = [line + b"\n" for line in state], re.findall(rb"[^\n]*\n|[^\n]+", rest)
        same = 0
        while same < len(wanted) and same < len(came) and wanted[same] == came[same]:
            same += 1
        return refused_line(number + 1 + same, "T1")
    return 0, text_of(state)
