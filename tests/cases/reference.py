"""A second reader and printer of scenarios, written from docs/FORMATS.md alone.

It says what `check` has to answer, so that long and made-up inputs have a wanted output that
doesn't come from the program.
"""

import re

BAD_BYTE = re.compile(rb"[^\t\x20-\x7e]")
NAME = re.compile(rb"[a-z0-9_]{1,32}")
NUMBER = re.compile(rb"[0-9]{1,9}")

# For each keyword what stands behind it: n a new name, u a used name, d a number; + repeats the last.
SHAPES = {
    b"cell": "n+",
    b"crossing": "nu+",
    b"area": "nu+",
    b"link": "uud",
    b"lane": "uud",
    b"flow": "uu+",
    b"robot": "nu",
    b"mission": "u",
    b"visit": "u",
    b"repeat": "d",
    b"again": "",
    b"done": "",
    b"end": "",
}
SITE_LINES = {b"cell", b"crossing", b"area", b"link", b"lane"}
MISSION_LINES = {b"visit", b"repeat", b"again", b"done"}


class Bad(Exception):
    """The code of a bad line."""


def require(holds, code):
    if not holds:
        raise Bad(code)


def before_comment(line):
    """The bytes of a line that stand before its comment."""
    within = False
    for place, byte in enumerate(line):
        if byte == 0x23 and not within:
            return line[:place]
        within = 0x21 <= byte <= 0x7E
    return line


class Reader:
    def __init__(self):
        self.version = 0
        self.names = {}  # name -> (kind, number)
        self.crossings = []  # {"cells", "flows"}
        self.areas = []
        self.links = {}  # (from, to) -> cost
        self.starts = []
        self.missions = {}  # robot -> legs
        self.open = None  # the robot of the open mission
        self.legs = []
        self.blocks = []  # (times, legs of what is around)
        self.ended = False

    # names
    def of_kind(self, kind):
        found = [(number, name) for name, (its, number) in self.names.items() if its == kind]
        return [name for _, name in sorted(found)]

    def count(self, kind):
        return sum(its == kind for its, _ in self.names.values())

    def used(self, word, *kinds):
        require(word in self.names and self.names[word][0] in kinds, "S11")
        return self.names[word]

    def used_cells(self, words):
        return [self.used(word, "cell")[1] for word in words]

    def add(self, kind, word):
        self.names[word] = (kind, self.count(kind))

    # the claims of crossings
    @staticmethod
    def claims_of(cells, flows):
        taken = {cell for flow in flows for cell in flow}
        return len(flows) + (1 if set(cells) - taken or not flows else 0)

    def claims(self):
        return sum(self.claims_of(it["cells"], it["flows"]) for it in self.crossings)

    def flow_of(self, crossing, cell):
        """The flow of a crossing that has the cell; None for a crossing without flow lines."""
        flows = self.crossings[crossing]["flows"]
        if not flows:
            return None
        return next((k for k, flow in enumerate(flows) if cell in flow), len(flows))

    def conflict(self, one, other):
        if one == other:
            return True
        for number, crossing in enumerate(self.crossings):
            if one in crossing["cells"] and other in crossing["cells"]:
                flows = self.flow_of(number, one), self.flow_of(number, other)
                if flows[0] is None or flows[0] != flows[1]:
                    return True
        return False

    # lines
    def line(self, line):
        require(len(line) <= 65_536, "S1")
        text = before_comment(line)
        require(not BAD_BYTE.search(text), "S2")
        words = text.split()
        if not words:
            return
        require(not self.ended, "S21")
        if not self.version:
            require(words in ([b"fleet", b"1"], [b"fleet", b"2"]), "S3")
            self.version = int(words[1])
            return
        keyword, words = words[0], words[1:]
        require(self.may_stand(keyword), "S4")
        self.judge_words(SHAPES[keyword], words)
        if keyword in (b"link", b"lane"):
            require(1 <= int(words[2]) <= 1_000_000, "S9")
        if keyword == b"repeat":
            require(1 <= int(words[0]) <= 64, "S9")
        getattr(self, keyword.decode())(*words)

    def may_stand(self, keyword):
        if self.open is not None:
            return keyword in MISSION_LINES
        if keyword in SITE_LINES or (keyword == b"flow" and self.version == 2):
            return not self.starts
        return keyword in (b"robot", b"mission", b"end")

    @staticmethod
    def judge_words(shape, words):
        least = len(shape.rstrip("+"))
        require(len(words) >= least, "S5")
        require(shape.endswith("+") or len(words) <= least, "S6")
        kinds = shape.rstrip("+").ljust(len(words), shape.rstrip("+")[-1:] or "u")
        for kind, word in zip(kinds, words):
            require(kind == "d" or NAME.fullmatch(word), "S7")
        for kind, word in zip(kinds, words):
            require(kind != "d" or NUMBER.fullmatch(word), "S8")

    def cell(self, *words):
        require(len(set(words)) == len(words) and not set(words) & set(self.names), "S10")
        require(self.count("cell") + len(words) <= 1_024, "S13")
        for word in words:
            self.add("cell", word)

    def cell_set(self, words):
        cells = self.used_cells(words)
        require(len(set(cells)) == len(cells), "S12")
        return cells

    def crossing(self, name, *words):
        require(name not in self.names, "S10")
        cells = self.cell_set(words)
        require(len(self.crossings) < 256 and self.claims() < 256, "S13")
        inside = lambda cell: sum(cell in it["cells"] for it in self.crossings)
        require(all(inside(cell) < 2 for cell in cells), "S14")
        self.add("crossing", name)
        self.crossings.append({"cells": cells, "flows": []})

    def area(self, name, *words):
        require(name not in self.names, "S10")
        cells = self.cell_set(words)
        require(len(self.areas) < 256, "S13")
        self.add("area", name)
        self.areas.append(cells)

    def link(self, start, end, cost, both=False):
        start, end = self.used_cells([start, end])
        pairs = [(start, end), (end, start)] if both else [(start, end)]
        require(len(self.links) + len(pairs) <= 8_192, "S13")
        require(start != end and not any(pair in self.links for pair in pairs), "S15")
        for pair in pairs:
            self.links[pair] = int(cost)

    def lane(self, start, end, cost):
        self.link(start, end, cost, both=True)

    def flow(self, name, *words):
        crossing = self.crossings[self.used(name, "crossing")[1]]
        cells = self.cell_set(words)
        before = self.claims_of(crossing["cells"], crossing["flows"])
        after = self.claims_of(crossing["cells"], [*crossing["flows"], cells])
        require(self.claims() - before + after <= 256, "S13")
        taken = {cell for flow in crossing["flows"] for cell in flow}
        require(set(cells) <= set(crossing["cells"]) and not set(cells) & taken, "S23")
        crossing["flows"].append(cells)

    def robot(self, name, start):
        require(name not in self.names, "S10")
        cell = self.used(start, "cell")[1]
        require(len(self.starts) < 64, "S13")
        require(not any(self.conflict(cell, it) for it in self.starts), "S16")
        self.add("robot", name)
        self.starts.append(cell)

    def mission(self, name):
        robot = self.used(name, "robot")[1]
        require(robot not in self.missions, "S17")
        self.open, self.legs, self.blocks = robot, [], []

    def visit(self, name):
        goal = self.used(name, "cell", "area")
        require(len(self.legs) < 64, "S19")
        self.legs = [*self.legs, goal]

    def repeat(self, times):
        require(len(self.blocks) < 4, "S18")
        self.blocks.append((int(times), self.legs))
        self.legs = []

    def again(self):
        require(self.blocks, "S18")
        times, around = self.blocks[-1]
        require(len(around) + times * len(self.legs) <= 64, "S19")
        self.blocks.pop()
        self.legs = around + self.legs * times

    def done(self):
        require(not self.blocks, "S18")
        self.missions[self.open] = self.legs
        self.open = None

    def end(self):
        require(self.starts, "S20")
        self.ended = True

    # the canonical text
    def canonical(self):
        cells, areas = self.of_kind("cell"), self.of_kind("area")
        some = lambda numbers: b"".join(b" " + cells[number] for number in sorted(numbers))
        lines = [b"fleet 2" if any(it["flows"] for it in self.crossings) else b"fleet 1"]
        lines += [b"cell " + name for name in cells]
        for name, crossing in zip(self.of_kind("crossing"), self.crossings):
            lines.append(b"crossing " + name + some(crossing["cells"]))
            flows = list(crossing["flows"])
            rest = set(crossing["cells"]) - {cell for flow in flows for cell in flow}
            if flows and rest:
                flows.append(rest)
            lines += [b"flow " + name + some(flow) for flow in flows]
        lines += [b"area " + name + some(its) for name, its in zip(areas, self.areas)]
        for (start, end), cost in sorted(self.links.items()):
            lines.append(b"link %s %s %d" % (cells[start], cells[end], cost))
        robots = self.of_kind("robot")
        lines += [b"robot " + name + b" " + cells[it] for name, it in zip(robots, self.starts)]
        for number, name in enumerate(robots):
            legs = self.missions.get(number, [])
            if legs:
                lines.append(b"mission " + name)
                for kind, goal in legs:
                    lines.append(b"visit " + (cells if kind == "cell" else areas)[goal])
                lines.append(b"done")
        return b"".join(line + b"\n" for line in [*lines, b"end"])


def check(text):
    """The status and the output of `check`."""
    if len(text) > 4_194_304:
        return 3, b"refused too big\n"
    reader = Reader()
    lines = text.split(b"\n")
    if lines[-1] == b"":
        lines.pop()
    for number, line in enumerate(lines, 1):
        try:
            reader.line(line[:-1] if line.endswith(b"\r") else line)
        except Bad as bad:
            return 3, b"refused line %d %s\n" % (number, str(bad).encode())
    if not reader.ended:
        return 3, b"refused line %d S22\n" % (len(lines) + 1)
    return 0, reader.canonical()
