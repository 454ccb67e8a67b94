#!/usr/bin/env python3
"""The router's rules once more, in plain Python: what the program must print for an input.

Written from docs/RULES.md and docs/FORMAT.md alone, without the proved code, so that the two can be compared
(tests/compare.py). It is slow and keeps everything in lists.
"""
import sys

BEYOND = 4294967295


class Refused(Exception):
    def __init__(self, number, layer, first=0, second=0, line=None):
        self.told = (number, layer, first, second, line)

    def __str__(self):
        number, layer, first, second, line = self.told
        added = "" if line is None else f" {line}"
        return f"(refused {number} {layer} {first} {second}{added})"


def scan_line(text, at, line):
    """The items of the form that begins at a byte, and where the next line begins; or refusal 13."""
    items, stack, pos = [], [], at

    def bad(p):
        raise Refused(13, "text", line, p - at + 1)

    def peek(p):
        return text[p : p + 1]

    if peek(pos) != b"(":
        bad(pos)
    stack.append([])
    pos += 1
    need = True
    while stack:
        c = peek(pos)
        if need:
            start = pos
            if c and b"a" <= c <= b"z":
                while b"a" <= peek(pos) <= b"z" and peek(pos):
                    pos += 1
                stack[-1].append(("word", text[start:pos].decode(), start - at + 1))
            elif c and c.isdigit():
                while peek(pos) and peek(pos).isdigit():
                    pos += 1
                stack[-1].append(("number", text[start:pos].decode(), start - at + 1))
            elif c == b"-":
                pos += 1
                stack[-1].append(("hyphen", "-", start - at + 1))
            elif c == b"(" and len(stack) == 1:
                stack.append([])
                pos += 1
                continue
            else:
                bad(pos)
            need = False
        elif c == b" ":
            pos += 1
            need = True
        elif c == b")":
            done = stack.pop()
            pos += 1
            if stack:
                stack[-1].append(("form", done, 0))
            else:
                items = done
        else:
            bad(pos)
    if peek(pos) != b"\n":
        bad(pos)
    return items, pos + 1


def numbers(items):
    for kind, value, byte in items:
        if kind == "number":
            yield value, byte
        elif kind == "form":
            yield from numbers(value)


def read_line(text, at, line):
    """Tests 13 and 15."""
    items, end = scan_line(text, at, line)
    for value, byte in numbers(items):
        if (len(value) > 1 and value[0] == "0") or len(value) > 10 or int(value) > BEYOND - 1:
            raise Refused(15, "form", line, byte)
    return items, end


def fits(items, pattern):
    """Whether items match a pattern: a word, 'n' a number, or a list for a nested form."""
    if len(items) != len(pattern):
        return False
    for (kind, value, _), want in zip(items, pattern):
        if want == "N":
            if kind != "number":
                return False
        elif want == "V":
            if kind not in ("number", "hyphen"):
                return False
        elif isinstance(want, list):
            if kind != "form" or not fits(value, want):
                return False
        elif kind != "word" or value != want:
            return False
    return True


def value_of(item):
    return BEYOND if item[0] == "hyphen" else int(item[1])


def take(text, at, line, pattern):
    items, end = read_line(text, at, line)
    if not fits(items, pattern):
        raise Refused(14, "form", line)
    return items, end


def read_mark(text, at, line, nodes):
    items, end = read_line(text, at, line)
    short = len(items) == 3 and fits(items[:1], ["mark"]) and all(i[0] == "form" for i in items[1:])
    if not short or any(len(i[1]) != nodes + 1 for i in items[1:]):
        raise Refused(14, "form", line)
    if not fits(items, ["mark", ["to"] + ["V"] * nodes, ["from"] + ["V"] * nodes]):
        raise Refused(14, "form", line)
    return [value_of(i) for i in items[1][1][1:]], [value_of(i) for i in items[2][1][1:]], end


class Plant:
    pass


def read_plant(text, most):
    items, at = take(text, 0, 1, ["plant", "N", "N", "N"])
    nodes, lanes, landmarks = (int(i[1]) for i in items[1:])
    line = 2
    plant = Plant()
    plant.lanes, plant.marks, plant.closed = [], [], set()
    for _ in range(lanes):
        items, at = take(text, at, line, ["lane", "N", "N", "N"])
        plant.lanes.append(tuple(int(i[1]) for i in items[1:]))
        line += 1
    for _ in range(landmarks):
        to, frm, at = read_mark(text, at, line, nodes)
        plant.marks.append((to, frm))
        line += 1
    plant.nodes, plant.end, plant.line = nodes, at, line
    if not (1 <= nodes <= 4096 and lanes <= 16384 and landmarks <= 16):
        raise Refused(1, "plant", 0, 0, 1)
    if nodes > most[0] or lanes > most[1] or landmarks > most[2]:
        raise Refused(8, "search")
    before = 0
    for k, (tail, head, _) in enumerate(plant.lanes):
        if tail >= nodes or head >= nodes or tail < before:
            raise Refused(3, "plant", k, 0, 2 + k)
        before = tail
    for k, (_, _, cost) in enumerate(plant.lanes):
        if cost > 1000000:
            raise Refused(4, "plant", k, 0, 2 + k)
    for m, (to, frm) in enumerate(plant.marks):
        for k, (v, w, cost) in enumerate(plant.lanes):
            if to[v] > join(cost, to[w]) or frm[w] > join(frm[v], cost):
                raise Refused(6, "plant", m, k, 2 + lanes + m)
    return plant


def join(a, b):
    return min(a + b, BEYOND)


def rest(a, b):
    return max(a - b, 0)


def bound(plant, v, w):
    best = 0
    for to, frm in plant.marks:
        best = max(best, rest(to[v], to[w]), rest(frm[w], frm[v]))
    return best


def lane_cost(plant, k):
    return BEYOND if k in plant.closed else plant.lanes[k][2]


def close(plant, k):
    if k >= len(plant.lanes):
        raise Refused(9, "shift", k)
    if k in plant.closed:
        raise Refused(10, "shift", k)
    if len(plant.closed) >= 64:
        raise Refused(11, "shift", k)
    plant.closed.add(k)
    return f"(closed {k})"


def reopen(plant, k):
    if k >= len(plant.lanes):
        raise Refused(9, "shift", k)
    if k not in plant.closed:
        raise Refused(12, "shift", k)
    plant.closed.remove(k)
    return f"(reopened {k})"


def one_way(plant, start, goal):
    n = plant.nodes
    for v in (start, goal):
        if v >= n:
            raise Refused(7, "search", v)
    label, lane, state = [BEYOND] * n, [0] * n, ["blank"] * n
    label[start], state[start] = 0, "labelled"
    while True:
        picks = []
        for v in range(n):
            if state[v] == "labelled":
                key = join(label[v], bound(plant, v, goal))
                if key < BEYOND:
                    picks.append((key, label[v], v))
        scanned = state.count("scanned")
        if not picks:
            return f"(beyond {scanned})"
        _, _, v = min(picks)
        if v == goal:
            break
        state[v] = "scanned"
        for k, (tail, head, _) in enumerate(plant.lanes):
            if tail == v and state[head] in ("blank", "labelled"):
                there = join(label[v], lane_cost(plant, k))
                if there < label[head]:
                    label[head], lane[head], state[head] = there, k, "labelled"
    route, v = [goal], goal
    while v != start:
        v = plant.lanes[lane[v]][0]
        route.append(v)
    nodes = " ".join(str(v) for v in reversed(route))
    return f"(route {label[goal]} {scanned} ({nodes}))"


class Side:
    """One side of a two-way search: its rows, and the last key that it picked."""

    def __init__(self, n, source):
        self.label, self.lane, self.state = [BEYOND] * n, [0] * n, ["blank"] * n
        self.label[source], self.state[source] = 0, "labelled"
        self.last = 0


def two_way(plant, start, goal):
    n = plant.nodes
    for v in (start, goal):
        if v >= n:
            raise Refused(7, "search", v)
    sides = [Side(n, start), Side(n, goal)]
    bounds = [lambda v: bound(plant, v, goal), lambda v: bound(plant, start, v)]
    best, meeting = (0, start) if start == goal else (BEYOND, None)
    turn = 0
    while True:
        near, far = sides[turn], sides[1 - turn]
        picks = [(join(near.label[v], bounds[turn](v)), near.label[v], v) for v in range(n) if near.state[v] == "labelled"]
        if not picks or min(picks)[0] >= best:
            break
        key, label, v = min(picks)
        near.last = key
        if far.state[v] == "scanned":
            near.state[v] = "scanned"
        elif join(label, rest(far.last, bounds[1 - turn](v))) >= best:
            near.state[v] = "dropped"
        else:
            near.state[v] = "scanned"
            for k, (tail, head, _) in enumerate(plant.lanes):
                here, there = (tail, head) if turn == 0 else (head, tail)
                if here == v and near.state[there] in ("blank", "labelled"):
                    cost = join(label, lane_cost(plant, k))
                    if cost < near.label[there]:
                        near.label[there], near.lane[there], near.state[there] = cost, k, "labelled"
                        both = join(cost, far.label[there])
                        if both < best:
                            best, meeting = both, there
        turn = 1 - turn
    counts = " ".join(str(side.state.count("scanned")) for side in sides)
    if best == BEYOND:
        return f"(beyond {counts})"
    route, v = [meeting], meeting
    while v != start:
        v = plant.lanes[sides[0].lane[v]][0]
        route.insert(0, v)
    v = meeting
    while v != goal:
        v = plant.lanes[sides[1].lane[v]][1]
        route.append(v)
    return f"(route {best} {counts} ({' '.join(map(str, route))}))"


def answer(text, at, line, plant):
    items, _ = read_line(text, at, line)
    if fits(items, ["one", "N", "N"]):
        return one_way(plant, int(items[1][1]), int(items[2][1]))
    if fits(items, ["two", "N", "N"]):
        return two_way(plant, int(items[1][1]), int(items[2][1]))
    if fits(items, ["close", "N"]):
        return close(plant, int(items[1][1]))
    if fits(items, ["reopen", "N"]):
        return reopen(plant, int(items[1][1]))
    raise Refused(14, "form", line)


def run(text):
    """The lines that the program prints."""
    if len(text) > 32768:
        return [str(Refused(8, "search"))]
    try:
        plant = read_plant(text, (128, 512, 4))
    except Refused as refused:
        return [str(refused)]
    printed, at, line = [], plant.end, plant.line
    while at < len(text):
        try:
            printed.append(answer(text, at, line, plant))
        except Refused as refused:
            printed.append(str(refused))
        feed = text.find(b"\n", at)
        at = len(text) if feed < 0 else feed + 1
        line += 1
    return printed


if __name__ == "__main__":
    for told in run(sys.stdin.buffer.read()):
        print(told)
