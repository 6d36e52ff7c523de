"""Made-up scripts on small sites: most proposals are walks, most reports come in turn."""

import random

from machine import COMMANDS, Machine, command_of, front, text_of


def is_accepted(lines):
    return len(front(text_of(lines))) == 3


def scenario(draw):
    """The lines of a scenario with 2 to 9 cells, up to 2 crossings with flows, an area, and up to 5 robots."""
    cells = [b"c%d" % number for number in range(draw.randint(2, 9))]
    lines = [b"fleet 2", b"cell " + b" ".join(cells)]
    for start in cells:
        for end in draw.sample(cells, draw.randint(1, min(3, len(cells)))):
            lines += [b"link %s %s %d" % (start, end, draw.randint(1, 3))] if start != end else []
    for number in range(draw.randint(0, 2)):
        within = draw.sample(cells, draw.randint(1, min(4, len(cells))))
        lines.append(b"crossing x%d " % number + b" ".join(within))
        for _ in range(draw.randint(0, 2)):
            flow, within = within[:2], within[2:]
            lines += [b"flow x%d " % number + b" ".join(flow)] if flow else []
    lines.append(b"area all " + b" ".join(draw.sample(cells, draw.randint(1, len(cells)))))
    for number, start in enumerate(draw.sample(cells, min(len(cells), draw.randint(1, 5)))):
        robot = [b"robot r%d %s" % (number, start)]
        lines += robot if is_accepted([*lines, *robot, b"end"]) or not number else []
    return [*lines, b"end"]


def walk(draw, machine, robot):
    """A walk from the robot's end, now and then with a cell that spoils it."""
    cells = [machine.end(robot)]
    for _ in range(draw.choice((1, 1, 1, 2, 2, 3, 5))):
        ends = [to for to, _ in machine.site.links[cells[-1]]]
        cells.append(draw.choice(ends) if ends and draw.random() < 0.97 else draw.choice(list(machine.site.links)))
    return machine.cells(cells)


def command(draw, machine, names):
    robots = range(len(machine.robots))
    weights = {b"propose": 4, b"report": 12, b"retry": 2, b"look": 1, b"cancel": 0.3, b"withdraw": 0.5, b"replan": 1}
    name = draw.choices(list(COMMANDS), [weights[name] for name in COMMANDS])[0]
    busy = [robot for robot in robots if machine.unfinished(robot)]
    if name == b"report" and not busy and draw.random() < 0.95:
        name = b"propose"
    robot = draw.choice(busy if busy and name == b"report" and draw.random() < 0.97 else robots)
    left = machine.unfinished(robot)
    line = name + b" " + machine.robots[robot]
    if name == b"propose":
        line += walk(draw, machine, robot)
    if name == b"report":
        in_turn = left and draw.random() < 0.95
        line += b" %d" % (left[0].number if in_turn else draw.randint(0, machine.next))
    if name == b"replan":
        line += b" " + draw.choice(names)
    return line


def made(count):
    draw = random.Random(2)
    for _ in range(count):
        lines = scenario(draw)
        begun = front(text_of(lines))
        if len(begun) == 3:
            reader, machine = begun[0], Machine(begun[0])
            goals = reader.of_kind("cell") + reader.of_kind("area")
            for _ in range(draw.randint(1, 60)):
                lines.append(command(draw, machine, goals))
                name, values = command_of(reader, lines[-1])
                machine.answer(name, *values)
            yield text_of(lines)
