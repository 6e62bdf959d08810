"""The machine of docs/MACHINE.md and `play` in Python, written apart from the definitions and the code: what is printed for a match file."""
import struct

DEFAULTS = {0: 4, 7: 1, 8: 1, 9: 1, 10: 1, 15: 1, 16: 1}
OTHERS = {1: 6, 11: 6, 12: 6, 13: 6, 14: 1, 2: 4, 3: 4, 4: 4, 5: 4, 6: 4}
PAIRS = [[(0, 0)], [(1, 1)], [(0, 1)], [(1, 0)], [(0, 0), (1, 1)], [(1, 0), (0, 1)], [(0, 0), (1, 1)]]


class Refused(Exception):
    pass


def default(opcode, a_mode, b_mode):
    if opcode in DEFAULTS:
        return DEFAULTS[opcode]
    if a_mode == 0:
        return 2
    if b_mode == 0:
        return 1
    return OTHERS.get(opcode)


def read(file):
    """The size and the warriors (name, body, origin, place), or 13 with its position."""

    def field(at, k):
        if at + k > len(file):
            raise Refused(13, len(file))
        return file[at:at + k]

    n = field(0, 1)[0]
    if not 1 <= n <= 16:
        raise Refused(13, 0)
    size = struct.unpack("<H", field(1, 2))[0]
    if field(3, 1) != b"\0":
        raise Refused(13, 3)
    start = 4 + 43 * n
    lines = []
    for i in range(n):
        at = 4 + 43 * i
        length = field(at, 1)[0]
        if length > 32:
            raise Refused(13, at)
        name = field(at + 1, 32)
        for k, byte in enumerate(name):
            if not (33 <= byte <= 126 if k < length else byte == 0):
                raise Refused(13, at + 1 + k)
        if struct.unpack("<I", field(at + 33, 4))[0] != start:
            raise Refused(13, at + 33)
        count, origin, place = (struct.unpack("<H", field(at + k, 2))[0] for k in (37, 39, 41))
        lines.append((name[:length], start, count, origin, place))
        start += 12 * count
    if start > len(file):
        raise Refused(13, len(file))
    if start < len(file):
        raise Refused(13, start)
    return size, [(name, file[at:at + 12 * count], origin, place) for name, at, count, origin, place in lines]


class Machine:
    """A machine of that size in which each name may hold so many entries of the queue."""

    def __init__(self, size, processes):
        if not 1 <= size <= 8000:
            raise Refused(1)
        self.size, self.processes = size, processes
        # opcode, modifier, modes, numbers
        self.core = [[0, 4, [1, 1], [0, 0]] for _ in range(size)]
        self.queue, self.counts, self.threads, self.steps = [], {}, {}, 0

    def place(self, name, body, place):
        """Places a body under a name, which is held from then on."""
        if len(body) // 12 > self.size:
            raise Refused(3)
        cells = []
        for i in range(0, len(body), 12):
            opcode, modifier, a_mode, b_mode, a, b = struct.unpack("<BBBBii", body[i:i + 12])
            if modifier == 255 and opcode <= 18:
                modifier = default(opcode, a_mode, b_mode)
            if opcode > 18 or modifier is None or modifier > 6 or a_mode > 7 or b_mode > 7:
                raise Refused(4)
            cells.append([opcode, modifier, [a_mode, b_mode], [a % self.size, b % self.size]])
        if place >= self.size:
            raise Refused(5)
        for i, cell in enumerate(cells):
            self.core[(place + i) % self.size] = cell
        name = name.decode() or "Warrior0"
        self.counts.setdefault(name, 0)
        self.threads.setdefault(name, 0)

    def start(self, name, place):
        """Starts a process under a name at a place that is below the size."""
        name = name.decode() or "Warrior0"
        if self.counts.get(name, 0) == self.processes:
            raise Refused(6)
        thread = self.threads.get(name, 0)
        self.counts[name], self.threads[name] = self.counts.get(name, 0) + 1, thread + 1
        self.queue.append((place, thread, name))

    def place_and_start(self, name, body, origin, place):
        """A warrior of a file: placed, then started at its origin."""
        self.place(name, body, place)
        self.start(name, (place + (0 if origin == 65535 else origin)) % self.size)

    def operand(self, pc, mode, number):
        """The pointer, a copy of the cell there, and the writes."""
        location = (pc + number) % self.size
        if mode < 2:
            pointer = pc if mode == 0 else location
            return pointer, [*self.core[pointer][:2], self.core[pointer][2][:], self.core[pointer][3][:]], 0
        through = self.core[location][3]
        if mode in (4, 5):
            through[mode % 2] = (through[mode % 2] - 1) % self.size
        pointer = (location + through[mode % 2]) % self.size
        cell = self.core[pointer]
        copy = [*cell[:2], cell[2][:], cell[3][:]]
        if mode in (6, 7):
            through[mode % 2] = (through[mode % 2] + 1) % self.size
        return pointer, copy, int(mode >= 4)

    def store(self, opcode, modifier, a, live, pairs):
        """Changes the target; whether a field of it was stored."""
        if opcode == 1 and modifier == 6:
            live[:2] = a[:2]
        stored = False
        if opcode in (1, 2, 3, 4, 5, 6, 10):
            for x, y, to in pairs:
                if opcode in (5, 6) and y == 0:
                    continue
                value = {1: x, 2: x + y, 3: y - x, 4: x * y, 5: x // (y or 1), 6: x % (y or 1), 10: y - 1}[opcode]
                live[3][to] = value % self.size
                stored = True
        return stored

    def following(self, opcode, pc, a_pointer, pairs, equal):
        """Where a process that does not end goes on."""
        jumps = {7: True, 8: any(y == 0 for _, y, _ in pairs), 9: any(y for _, y, _ in pairs), 10: any((y - 1) % self.size for _, y, _ in pairs)}
        skips = {11: equal, 12: equal, 13: not equal, 14: all(x < y for x, y, _ in pairs)}
        if jumps.get(opcode):
            return a_pointer
        return (pc + (2 if skips.get(opcode) else 1)) % self.size

    def step(self):
        """The answer and the writes."""
        if not self.queue:
            return 7, 0
        pc, thread, name = self.queue[0]
        opcode, modifier, modes, _ = self.core[pc]
        if opcode >= 17:
            return 10, 0
        self.queue.pop(0)
        self.counts[name] -= 1
        self.steps += 1
        a_pointer, a, writes = self.operand(pc, modes[0], self.core[pc][3][0])
        b_pointer, b, more = self.operand(pc, modes[1], self.core[pc][3][1])
        live = self.core[b_pointer]
        pairs = [(a[3][x], b[3][y], y) for x, y in PAIRS[modifier]]
        equal = all(x == y for x, y, _ in pairs) and (modifier != 6 or a == live)
        writes += more + self.store(opcode, modifier, a, live, pairs)
        ended = 11 if opcode == 0 else 12 if opcode in (5, 6) and any(y == 0 for _, y, _ in pairs) else 0
        if ended:
            return (0 if self.counts[name] else ended), writes
        self.queue.append((self.following(opcode, pc, a_pointer, pairs, equal), thread, name))
        self.counts[name] += 1
        if opcode == 15 and self.counts[name] < self.processes:
            self.queue.append((a_pointer, self.threads[name], name))
            self.threads[name] += 1
            self.counts[name] += 1
        return 0, writes


def printed(file):
    try:
        if len(file) > 32768:
            raise Refused(13, 32768)
        size, warriors = read(file)
        machine = Machine(size, 125)
        for warrior in warriors:
            machine.place_and_start(*warrior)
    except Refused as refused:
        return " ".join(map(str, refused.args)) + "\n"
    answer = total = 0
    while machine.steps < 10000 and answer == 0:
        answer, writes = machine.step()
        total += writes
    names = "".join(f"{name} {count}\n" for name, count in machine.counts.items())
    return f"{answer} {machine.steps} {total}\n{names}"
