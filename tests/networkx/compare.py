"""Compares the proved calls with networkx: the shortest and the widest paths of generated networks.

compare.py [--networks N] [--seed S] COMMAND [WORDS..]

The command starts the program that answers calls on its standard input. Each network is settled twice by it, from fresh:
by the lengths of its arcs (dist) and by their widths. networkx gives the shortest paths by Dijkstra's rule, and the widest by
reaching: the widest path from i to j is as wide as the largest width w such that j is reached from i over arcs of at
least w.
"""

import argparse
import random
import struct
import subprocess
import sys
import threading

import networkx

STEPS = 3
DIST, WIDTH = 1, 2
LARGEST = 65_535
SETTLE_FROM = 256
NO_ROUTE = (0xFFFFFFFF,) * 4


def network(dice):
    """A network with arcs of small, any or large lengths, small ones tying often, and of a few widths."""
    graph = networkx.DiGraph()
    n = dice.randint(1, 16)
    graph.add_nodes_from(range(n))
    density = dice.random()
    low, high = dice.choice([(0, 4), (0, 50), (0, LARGEST), (LARGEST - 3, LARGEST)])
    widths = [dice.randint(1, LARGEST) for _ in range(dice.randint(1, 7))]
    for i in range(n):
        for j in range(n):
            if dice.random() < density:
                graph.add_edge(i, j, length=dice.randint(low, high), width=dice.choice(widths))
    return graph


def shortest(graph):
    """The weight of the shortest path of each pair that has one."""
    lengths = dict(networkx.all_pairs_dijkstra_path_length(graph, weight="length"))
    return {(i, j): length for i, ends in lengths.items() for j, length in ends.items()}


def widest(graph):
    """The width of the widest path of each pair that has one; a node is reached from itself at any width."""
    widths = {}
    for width in sorted(set(networkx.get_edge_attributes(graph, "width").values())):
        wide = [(i, j) for i, j, found in graph.edges(data="width") if width <= found]
        part = networkx.DiGraph(wide)
        for i in part:
            widths.update({(i, j): width for j in networkx.descendants(part, i)})
    widths.update({(i, i): LARGEST for i in graph})
    return widths


def weight(value):
    return NO_ROUTE if value is None else (value, 0, 0, 0)


def words_of(n, values):
    """The words of a matrix of one component."""
    return [word for i in range(n) for j in range(n) for word in weight(values.get((i, j)))]


def request(kind, graph):
    """The frame of a call that settles every column from fresh."""
    n = len(graph)
    arcs = words_of(n, networkx.get_edge_attributes(graph, "length" if kind == DIST else "width"))
    unit = 0 if kind == DIST else LARGEST
    fresh = words_of(n, {(i, i): unit for i in range(n)})
    steps = [SETTLE_FROM + j for j in range(n)]
    language = [1, kind, LARGEST if kind == WIDTH else 0, 1, 0, 1, 0, 1, 0]
    numbers = [n, 0, 0, 0, 0]
    lengths = [len(arcs), len(fresh), len(steps)]
    words = [STEPS, *language, *numbers, *lengths, *arcs, *fresh, *steps]
    return struct.pack(f"<{len(words) + 1}I", len(words), *words)


def expected(kind, graph):
    """The words of the answer: done, n steps, and the settled matrix."""
    best = shortest(graph) if kind == DIST else widest(graph)
    n = len(graph)
    return (0, 0, 0, n, *words_of(n, best))


def received(stream):
    """The words of one frame; none where the program has stopped."""
    first = stream.read(4)
    if len(first) < 4:
        return None
    count = struct.unpack("<I", first)[0]
    words = stream.read(4 * count)
    return struct.unpack(f"<{count}I", words) if len(words) == 4 * count else None


def asked(stream, calls):
    """Writes every call, then ends the program's input."""
    with stream:
        for kind, graph in calls:
            stream.write(request(kind, graph))


def compare(command, first, count):
    """What differs first, none where all agree, and how many pairs have a route."""
    graphs = [network(random.Random(seed)) for seed in range(first, first + count)]
    calls = [(kind, graph) for graph in graphs for kind in (DIST, WIDTH)]
    program = subprocess.Popen(command, stdin=subprocess.PIPE, stdout=subprocess.PIPE)
    writer = threading.Thread(target=asked, args=(program.stdin, calls), daemon=True)
    writer.start()
    routes = 0
    for index, (kind, graph) in enumerate(calls):
        wanted = expected(kind, graph)
        answer = received(program.stdout)
        if answer != wanted:
            program.kill()
            return (first + index // 2, kind, wanted, answer), routes
        routes += sum(wanted[at : at + 4] != NO_ROUTE for at in range(4, len(wanted), 4))
    writer.join()
    program.stdout.read()
    return (None if program.wait() == 0 else (None, None, None, None)), routes


def main():
    parser = argparse.ArgumentParser()
    parser.add_argument("--networks", type=int, default=1_000)
    parser.add_argument("--seed", type=int, default=1)
    parser.add_argument("command", nargs=argparse.REMAINDER)
    options = parser.parse_args()
    if not options.command:
        parser.error("no command")
    difference, routes = compare(options.command, options.seed, options.networks)
    if difference:
        seed, kind, wanted, answer = difference
        name = {DIST: "shortest", WIDTH: "widest", None: "after the last"}[kind]
        print(f"MISMATCH, {name} paths, seed {seed} (again: --seed {seed} --networks 1)")
        print(f"networkx: {wanted}\nprogram:  {answer}")
        return 1
    print(f"networkx {networkx.__version__}: {options.networks} networks, shortest and widest, {routes} routes compared")
    print("no difference")
    return 0


if __name__ == "__main__":
    sys.exit(main())
