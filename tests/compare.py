#!/usr/bin/env python3
"""Compares the program with tests/reference.py on random floors and damaged files, byte for byte.

    python3 tests/compare.py crates/router/out/router [COUNT [SEED]]
"""
import random
import subprocess
import sys

import reference

BEYOND = reference.BEYOND


def exact_tables(nodes, lanes, mark):
    """The least costs to and from a landmark."""
    to, frm = [BEYOND] * nodes, [BEYOND] * nodes
    to[mark] = frm[mark] = 0
    for _ in range(nodes):
        for v, w, c in lanes:
            to[v] = min(to[v], reference.join(c, to[w]))
            frm[w] = min(frm[w], reference.join(frm[v], c))
    return to, frm


def floor(rnd):
    nodes = rnd.choice([1, 2, 3, 4, 6, 9, 14, 20, 128 if rnd.random() < 0.1 else 7])
    count = rnd.randrange(0, min(512, 3 * nodes + 4))
    top = rnd.choice([0, 1, 3, 9, 1000, 1000000])
    lanes = sorted((rnd.randrange(nodes), rnd.randrange(nodes), rnd.randrange(top + 1)) for _ in range(count))
    lanes = [(v, w, c) for v, w, c in sorted(lanes, key=lambda l: l[0])]
    marks = []
    for _ in range(rnd.choice([0, 0, 1, 1, 2, 4])):
        to, frm = exact_tables(nodes, lanes, rnd.randrange(nodes))
        if rnd.random() < 0.2:
            to = [0] * nodes
        if rnd.random() < 0.1:
            to[rnd.randrange(nodes)] = rnd.randrange(20)
        if rnd.random() < 0.1:
            frm[rnd.randrange(nodes)] = rnd.choice([BEYOND, rnd.randrange(20)])
        marks.append((to, frm))
    return nodes, lanes, marks


def plant_lines(nodes, lanes, marks):
    def show(x):
        return "-" if x == BEYOND else str(x)

    yield f"(plant {nodes} {len(lanes)} {len(marks)})"
    for v, w, c in lanes:
        yield f"(lane {v} {w} {c})"
    for to, frm in marks:
        yield f"(mark (to {' '.join(map(show, to))}) (from {' '.join(map(show, frm))}))"


def command(rnd, nodes, lanes):
    if rnd.random() < 0.4:
        return f"({rnd.choice(['close', 'close', 'reopen'])} {rnd.randrange(lanes + 1)})"
    if rnd.random() < 0.1:
        return rnd.choice(["(walk 0 0)", "(two 0)", "(two 0 0 0)", "(close)", "(close 0 0)", "(close -)", "(open 0)", "(one)", "(one 0)", "(one 0 1 2)", "one 0 1", "", "(one 00 1)", "(one 0 4294967295)", "(one (0) 1)", "((one) 0 1)", "(((", "(one 0 -)", "(one 0 1) ", "(one 0 1", "(reopen 1)", "(reopen 01)", "(one 0 4294967294)"])
    return f"({rnd.choice(['one', 'two', 'two'])} {rnd.randrange(nodes + (rnd.random() < 0.05))} {rnd.randrange(nodes)})"


def damage(rnd, text):
    text = bytearray(text)
    for _ in range(rnd.choice([1, 1, 2, 3])):
        at = rnd.randrange(len(text)) if text else 0
        kind = rnd.randrange(6)
        if kind == 0:
            text[at : at + 1] = b""
        elif kind == 1:
            text[at:at] = bytes([rnd.choice(b"()- \n\t0129az\x00\xff\xc3Zx")])
        elif kind == 2 and text:
            text[at] = rnd.choice(b"()- \n0159amz\x80")
        elif kind == 3:
            text = text[:at]
        elif kind == 4:
            other = rnd.randrange(len(text) + 1)
            text[at:at] = text[min(at, other) : max(at, other)][:40]
        else:
            text[at:at] = rnd.choice([b"4294967294", b"4294967295", b"00", b"9" * 60, b" ", b"(", b"))", b"(a)"])
    return bytes(text)


def case(rnd):
    if rnd.random() < 0.01:
        size = rnd.choice([32767, 32768, 32769, 40000])
        return b"(plant 1 0 0)\n" + b"\n" * (size - 14)
    if rnd.random() < 0.02:
        return rnd.choice([b"", b"\n", b"(", b"(plant 1 0 0)", b"(plant 0 0 0)\n", b"(plant 129 0 0)\n", b"(plant 4097 0 0)\n", b"(plant 1 0 17)\n", b"(plant 4294967294 0 0)\n", b"(plant 1 16385 0)\n", b"(plant 1 0 0)\n(one 0 0)"])
    nodes, lanes, marks = floor(rnd)
    if rnd.random() < 0.05 and lanes:
        rnd.shuffle(lanes)
    if rnd.random() < 0.05 and lanes:
        k = rnd.randrange(len(lanes))
        v, w, c = lanes[k]
        lanes[k] = rnd.choice([(v, nodes, c), (nodes, w, c), (v, w, 1000001), (v, w, 1000000)])
    lines = list(plant_lines(nodes, lanes, marks))
    many = rnd.randrange(12) if rnd.random() < 0.9 else 200
    lines += [command(rnd, nodes, len(lanes)) for _ in range(many)]
    text = ("\n".join(lines) + "\n").encode()
    return damage(rnd, text) if rnd.random() < 0.4 else text


def main():
    program = sys.argv[1]
    count = int(sys.argv[2]) if len(sys.argv) > 2 else 1000
    seed = int(sys.argv[3]) if len(sys.argv) > 3 else 1
    kinds = {}
    for i in range(count):
        text = case(random.Random(seed * 1000003 + i))
        want = "".join(line + "\n" for line in reference.run(text))
        ran = subprocess.run([program], input=text, capture_output=True)
        got = ran.stdout.decode()
        if got != want or ran.returncode != 0:
            open("/tmp/failing-input", "wb").write(text)
            print(f"case {i} differs; the input is in /tmp/failing-input\nwanted:\n{want}\ngot (status {ran.returncode}):\n{got}")
            sys.exit(1)
        for line in want.splitlines():
            word = " ".join(line.strip("()").split()[: 2 if line.startswith("(refused") else 1])
            kinds[word] = kinds.get(word, 0) + 1
    print(f"{count} inputs agree:", ", ".join(f"{n} {k}" for k, n in sorted(kinds.items())))


if __name__ == "__main__":
    main()
