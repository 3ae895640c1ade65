#!/usr/bin/env python3
"""Instructions per open link that `mapdivide` spends on packing and dividing a map, by family and size.

Needs valgrind, and the program (bench/README.md builds it). The program divides as often as its argument says; what is counted is eleven times less once,
so start-up, reading and printing are not in the figures.
"""
import os, random, re, struct, subprocess, sys, tempfile

HERE = os.path.dirname(os.path.abspath(__file__))
PROGRAM = os.path.join(HERE, '..', 'crates', 'mapdivide', 'out', 'mapdivide')
SIZES = [256, 512, 1024, 2048]


def map_file(places, links):
    links = sorted(links)
    first = 26 + 4 * places
    last = first + 12 * len(links)
    line = lambda kind, count, start: struct.pack('<BBHI', kind, 0, count, start)
    out = bytes([1, 3]) + line(1, places, 26) + line(2, len(links), first) + line(3, 0, last)
    out += b''.join(struct.pack('<I', site + 1) for site in range(places))
    return out + b''.join(struct.pack('<HHHBBHH', a, b, 1, 0, 0, 65535, 0) for a, b in links)


def chain(n):
    return [(i, i + 1) for i in range(n - 1)]


def backwards(links, n):
    return [(n - 1 - a, n - 1 - b) for a, b in links]


def ring(n):
    return chain(n) + [(n - 1, 0)]


def nested_rings(n):
    return ring(n) + [(i, i // 2) for i in range(1, n - 1)]


def two_place_rings(n):
    return [(i, i + 1) for i in range(n - 1)] + [(i + 1, i) for i in range(0, n - 1, 2)]


def random_map(n):
    pick = random.Random(n)
    return [(pick.randrange(n), pick.randrange(n)) for _ in range(2 * n)]


FAMILIES = {
    'chain': chain,
    'chain backwards': lambda n: backwards(chain(n), n),
    'ring': ring,
    'ring backwards': lambda n: backwards(ring(n), n),
    'nested rings': nested_rings,
    'chain of two-place rings': two_place_rings,
    'random': random_map,
}


def instructions(places, links, repeats):
    with tempfile.TemporaryDirectory() as folder:
        with open(os.path.join(folder, 'map.bin'), 'wb') as f:
            f.write(map_file(places, links))
        run = subprocess.run(
            ['valgrind', '--tool=callgrind', '--callgrind-out-file=/dev/null', os.path.abspath(PROGRAM), str(repeats)],
            cwd=folder, stdin=subprocess.DEVNULL, stdout=subprocess.DEVNULL, stderr=subprocess.PIPE, text=True, check=True)
        return int(re.search(r'Collected : (\d+)', run.stderr).group(1))


def main():
    print('family'.ljust(28) + ''.join(str(n).rjust(10) for n in SIZES) + '     2048 to 256')
    worst = 0.0
    for name, family in FAMILIES.items():
        row = []
        for n in SIZES:
            links = family(n)
            spent = instructions(n, links, 11) - instructions(n, links, 1)
            row.append(spent / 10 / len(links))
        ratio = row[-1] / row[0]
        worst = max(worst, ratio)
        print(name.ljust(28) + ''.join(f'{x:10.1f}' for x in row) + f'{ratio:16.2f}')
    return 0 if worst <= 1.5 else 1


sys.exit(main())
