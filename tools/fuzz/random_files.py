"""Random files of each kind and version, and small changes of files and words."""
import random
import re

from certificates import Certificate, Judge, Link
from models import Graph, System, Tasks


def small(draw: random.Random) -> int:
    """A size: mostly small, now and then 0 or large."""
    return draw.choice([0, 0, 1, 2, 3, draw.randrange(10), draw.randrange(10), draw.randrange(1000), draw.randrange(2**36)])


def random_tree(draw: random.Random) -> bytes:
    """A forest whose nodes have their numbers in any order."""
    count = draw.choice([1, 2, 3, 4, 5, 6, 7, 8, 9, 10, draw.randrange(11, 60)])
    names = draw.sample(range(1, count + 1), count)
    reach = draw.choice([1, 2, 8, count])
    version = draw.choice([1, 1, 2])
    outs, extras = ([small(draw) for _ in names] for _ in range(2))
    lines, below = {}, [0] * count
    for place in range(count):
        parent = place + 1 + draw.randrange(reach)
        has_parent = parent < count and draw.random() < 0.95
        if has_parent:
            below[parent] += outs[place]
        share = f"{draw.randint(0, min(below[place], outs[place] + extras[place]))} " if version == 2 else ""
        upper = names[parent] if has_parent else 0
        lines[names[place]] = f"{upper} {outs[place]} {extras[place]} {share}{draw.choice([1, 1, 2, 3, draw.randrange(1, 20)])}\n"
    return (f"tree {version}\nnodes {count}\n" + "".join(lines[name] for name in sorted(lines)) + "end\n").encode()


def random_workflow(draw: random.Random) -> bytes:
    """A term of a few tasks, by a stack."""
    wanted = draw.choice([0, 1, 2, 3, 4, 5, 6, 7, 8, 9, draw.randrange(10, 40)])
    version = draw.choice([1, 1, 2])
    lines: list[str] = []
    stack: list[tuple[int, int]] = []

    def hold() -> None:
        size = small(draw)
        lines.append(f"data {size}\n")
        stack.append((size, size))

    def join(count: int) -> None:
        parts = stack[-count:]
        lines.append(f"par {count}\n")
        stack[-count:] = [(sum(first for first, _ in parts), sum(last for _, last in parts))]

    hold()
    for _ in range(wanted):
        while len(stack) < 2 or draw.random() < 0.4:
            hold()
        (first, left), (needed, last) = stack[-2:]
        extra = small(draw)
        share = f"{draw.randint(0, min(left, extra + needed))} " if version == 2 else ""
        lines.append(f"task {extra} {share}{draw.randrange(1, 9)}\n")
        stack[-2:] = [(first, last)]
        if len(stack) > 1 and draw.random() < 0.3:
            join(draw.randint(2, len(stack)))
    if len(stack) > 1:
        join(len(stack))
    return (f"workflow {version}\ntasks {wanted}\n" + "".join(lines) + "end\n").encode()


def random_graph(draw: random.Random) -> bytes:
    """Mostly of a series-parallel term, with its tasks and arcs in any order; now and then with an arc more."""
    count = draw.choice([0, 1, 2, 3, 4, 5, 6, 7, 8, 9, draw.randrange(10, 40)])
    names = draw.sample(range(1, count + 1), count)
    arcs = series_parallel_arcs(draw, names)
    if count > 1 and draw.random() < 0.3:
        arcs.append(tuple(sorted(draw.sample(range(1, count + 1), 2))))
    # the arcs of none that are added need not be there
    kept = [(start, end, small(draw)) for start, end in draw.sample(arcs, len(arcs)) if start or end or draw.random() < 0.9]
    taken, made = ([sum(arc[2] for arc in kept if arc[side] == name) for name in range(count + 1)] for side in (1, 0))
    tasks = [random_graph_task(draw, small(draw), taken[name], made[name]) for name in range(1, count + 1)]
    return graph_text(Graph(tasks, kept))


def series_parallel_arcs(draw: random.Random, names: list[int]) -> list[tuple[int, int]]:
    """Arcs between these tasks, of a series-parallel graph; 0 stands for none."""
    arcs = [(0, 0)] if not names or draw.random() < 0.5 else [(0, names[0]), (names[0], 0)]
    for name in names[len(arcs) - 1 :]:
        place = draw.randrange(len(arcs))
        start, end = arcs[place]
        arcs[place : place + 1] = [(start, name), (name, end)]
        if draw.random() < 0.4:
            arcs.append(draw.choice(arcs))
    return arcs


def random_graph_task(draw: random.Random, extra: int, taken: int, made: int) -> tuple[int, int, int]:
    """Its extra, share and time, where it alone takes up so much, and makes so much."""
    share = draw.randint(0, min(taken, extra + made)) if draw.random() < 0.3 else 0
    return extra, share, draw.randrange(1, 9)


def graph_text(graph: Graph) -> bytes:
    """A file of version 1."""
    return lines_of_graph(1, graph.tasks, "arcs", graph.arcs)


def lines_of_graph(version: int, tasks: list[tuple[int, int, int]], word: str, between: list[tuple[int, ...]]) -> bytes:
    """A file of tasks and of what is between them, which goes by this word."""
    lines = [("graph", version), ("tasks", len(tasks)), *tasks, (word, len(between)), *between, ("end",)]
    return "".join(" ".join(map(str, line)) + "\n" for line in lines).encode()


def random_shared_graph(draw: random.Random) -> bytes:
    """Of version 2, with a few tasks, whose numbers are in any order, and a few items, with readers in any number."""
    count = draw.choice([0, 1, 2, 3, 4, 5, 6, 6, 7, 7, 7, 7])
    most = draw.choice([2, 9, 99, 2**36])
    # 0 stands for no task, before all of them
    names = [0, *draw.sample(range(1, count + 1), count)]
    items = []
    for _ in range(draw.choice([0, 1, 2, 3, 4, 5, 6, 7, 7])):
        place = draw.randrange(count + 1)
        readers = draw.sample(names[place + 1 :], draw.randint(0, count - place))
        items.append((draw.randint(0, most), names[place], *sorted(readers)))
    return text_of_items(draw, count, most, items)


def text_of_items(draw: random.Random, count: int, most: int, items: list[tuple[int, ...]]) -> bytes:
    """These items, and so many tasks whose extras are random; each item is its size, the task that makes it, and its readers."""
    taken, made = [0] * (count + 1), [0] * (count + 1)
    for size, maker, *readers in items:
        made[maker] += size
        if len(readers) == 1:
            taken[readers[0]] += size
    tasks = [random_graph_task(draw, draw.randint(0, most), taken[name], made[name]) for name in range(1, count + 1)]
    return lines_of_graph(2, tasks, "items", items)


def random_layered_graph(draw: random.Random) -> bytes:
    """Of version 2, in layers: the tasks of one mostly supply each task of the next, by an item for all or by one for each; a layer may read an input."""
    count = draw.choice([3, 4, 5, 6, 7, 7])
    names, most = draw.sample(range(1, count + 1), count), draw.choice([2, 9, 99])
    layers = []
    while names:
        layers.append(sorted(names.pop() for _ in range(min(len(names), draw.randint(1, 3)))))
    items = [(draw.randint(0, most), 0, *layer) for layer in layers if draw.random() < 0.4]
    for layer, readers in zip(layers, [*layers[1:], []]):
        for name in layer:
            mine = readers if draw.random() < 0.9 else draw.sample(readers, draw.randint(0, len(readers)))
            whole = draw.random() < 0.5
            items += [(draw.randint(0, most), name, *sorted(mine))] if whole else [(draw.randint(0, most), name, reader) for reader in sorted(mine)]
    return text_of_items(draw, count, most, draw.sample(items, len(items)))


def random_forked_graph(draw: random.Random) -> bytes:
    """Of version 2, mostly of a series-parallel term: an item goes along an arc, and is read on the way now and then, before its end."""
    count = draw.choice([1, 2, 3, 4, 5, 6, 7, 7, 7])
    names = draw.sample(range(1, count + 1), count)
    arcs, most = series_parallel_arcs(draw, names), draw.choice([2, 9, 99])
    before: dict[int, set[int]] = {}
    for name in draw.sample(names, count):
        find_earlier(name, arcs, before)
    items = []
    for start, end in draw.sample(arcs, len(arcs)):
        between = [name for name in names if end and name in before[end] and (not start or start in before[name])]
        readers = {*([end] if end else []), *(draw.sample(between, draw.randint(0, len(between))) if draw.random() < 0.4 else [])}
        if start or readers and draw.random() < 0.5:
            items.append((draw.randint(0, most), start, *sorted(readers)))
    return text_of_items(draw, count, most, items)


def find_earlier(name: int, arcs: list[tuple[int, int]], before: dict[int, set[int]]) -> None:
    """Puts the tasks that arcs lead from to this one, over others or not."""
    if name not in before:
        nearest = {start for start, end in arcs if end == name and start}
        for start in nearest:
            find_earlier(start, arcs, before)
        before[name] = nearest.union(*(before[start] for start in nearest))


def random_matrix(draw: random.Random) -> bytes:
    order = draw.choice([1, 2, 3, 4, 5, 6, 7, 8, 9, draw.randrange(10, 40)])
    field, values = draw.choice([("pattern", ""), ("pattern", ""), ("real", " 1.5"), ("complex", " 1 -2"), ("integer", " x")])
    symmetry = draw.choice(["general", "symmetric", "hermitian", "skew-symmetric"])
    entries = [f"{draw.randint(1, order)} {draw.randint(1, order)}{values}\n" for _ in range(draw.randrange(2 * order + 1))]
    return f"%%MatrixMarket matrix coordinate {field} {symmetry}\n{order} {order} {len(entries)}\n{''.join(entries)}".encode()


def random_permutation(draw: random.Random, count: int) -> bytes:
    return listed(draw, draw.sample(range(1, count + 1), count))


def random_inverse(draw: random.Random, count: int) -> bytes:
    """The places of so many vertices in an order of elimination, counted from 0 or from 1: alone, or as Scotch writes them."""
    base = draw.choice([0, 1])
    places = draw.sample(range(base, base + count), count)
    if draw.random() < 0.5:
        return listed(draw, places)
    if draw.random() < 0.5:
        return listed(draw, [count] + [number for vertex, place in enumerate(places, base) for number in (vertex, place)])
    return f"{count}\n".encode() + "".join(f"{vertex}\t{place}\n" for vertex, place in enumerate(places, base)).encode()


def reported(draw: random.Random, order: list[int]) -> bytes:
    """An order in a report as `post` prints it, its numbers on lines of their own or not, with some number for the peak."""
    numbers = listed(draw, order) if draw.random() < 0.5 else "".join(f"{number}\n" for number in order).encode()
    return f"peak {small(draw)}\norder {len(order)}\n".encode() + numbers + b"end\n"


def listed(draw: random.Random, values: list[int]) -> bytes:
    """Numbers on several lines."""
    return "".join(f"{value}{draw.choice([' ', chr(10)])}" for value in values).encode() + b"\n"


def random_traversal(draw: random.Random, system: Tasks) -> list[int]:
    done, order = 0, []
    for _ in range(system.count):
        task = draw.choice(list(system.ready(done)))
        done |= 1 << task
        order.append(task + 1)
    return order


def known_order(draw: random.Random, system: Tasks) -> list[int]:
    """A traversal, or the numbers of the tasks where there is none, as in the example with a cycle."""
    try:
        return random_traversal(draw, system)
    except IndexError:
        return list(range(1, system.count + 1))


def random_certificate(draw: random.Random, judge: Judge) -> Certificate:
    """Fences that leave an order, random amounts, and a bound at or round what they certify, for any number of workers or a few."""
    arcs = [[0, start - 1 if start else None, end - 1 if end else None] for _, start, end in judge.links]
    whole = known_order(draw, System([(0, 0, 1)] * judge.count, arcs))
    before = ((start, end) for place, end in enumerate(whole) for start in whole[:place] if end <= judge.system.count)
    fences = [fence for fence in before if draw.random() < 0.2]
    links = [*judge.links, *(Link(0, start, end) for start, end in fences)]
    most = max([link.size for link in links], default=0)
    amounts = [link.size + draw.choice([0, 0, 1, draw.randint(0, most)]) for link in links]
    workers = draw.choice([0, 0, 1, 2, 3])
    room = draw.randint(0, max([0, *judge.system.needs])) if workers else 0
    bound = judge.certified(links, amounts, room) + workers * room
    return Certificate(max(0, bound + draw.choice([-1, 0, 0, 1])), workers, room, judge.places, fences, amounts)


def random_plan(draw: random.Random, order: list[int], peak: int) -> bytes:
    """A plan with claims at random positions."""
    positions = sorted(draw.sample(range(1, 4 * len(order) + 6), draw.randrange(1, 5)))
    claims = "".join(f"{position} {draw.choice('FR')} {peak - 1 - draw.randrange(3)} {small(draw)}\n" for position in positions)
    priority = ""
    if draw.random() < 0.5:
        ranked = draw.choice([[], draw.sample(order, len(order))])
        priority = f"priority {len(ranked)}\n" + "".join(f"{number}\n" for number in ranked)
    head = f"plan {2 if priority else 1}\norder {len(order)}\n" + "".join(f"{number}\n" for number in order)
    return f"{head}{priority}peak {peak}\nclaims {len(positions)}\n{claims}end\n".encode()


# ---- changes

# Numbers at the limits of files and options.
LIMITS = (50_000, 1_000_000, 4_000_001, 10_000_000, 2**32 - 1, 2**40, 2**60, 2**64 - 1)

NEAR_LIMITS = [str(limit + more) for limit in LIMITS for more in (0, 1)]

WORDS = "0 1 2 3 7 00 007 -0 -1 +1 1.5 1e3 x end peak order F R % # data par task \0 \u00e9".split(" ")

TOKENS = WORDS + NEAR_LIMITS + [str(2**16), str(2**31), str(2**63), str(-(2**60)), str(-(2**60) - 1), "9" * 40]


def changed_bytes(draw: random.Random, text: bytes) -> bytes:
    """One byte is turned, left out, put in; or the text ends, or goes on."""
    place = draw.randrange(len(text) + 1)
    before, after = text[:place], text[place:]
    byte = bytes([draw.choice([0, 9, 10, 13, 32, 35, 37, 45, 48, 57, 128, 255, draw.randrange(256)])])
    put_in, left_out, turned = before + byte + after, before + after[1:], before + byte + after[1:]
    return draw.choice([put_in, left_out, turned, before, before + after[draw.randrange(9) :], text + text])


def changed_tokens(draw: random.Random, text: bytes) -> bytes:
    """One token becomes another one, is left out or stands twice."""
    parts = re.split(rb"([ \t\r\n]+)", text)
    place = 2 * draw.randrange((len(parts) + 1) // 2)
    number = parts[place]
    near = str(int(number) + draw.choice([-2, -1, 1, 2])).encode() if re.fullmatch(rb"-?[0-9]{1,25}", number) else b"1"
    other, limit = draw.choice(TOKENS).encode(), draw.choice(NEAR_LIMITS).encode()
    parts[place] = draw.choice([near, near, other, limit, b"", number + b" " + number, b"0" + number])
    return b"".join(parts)


def changed_lines(draw: random.Random, text: bytes) -> bytes:
    """Lines are left out, put in, exchanged; or all end otherwise."""
    lines = text.splitlines(keepends=True) or [b""]
    here, there = draw.randrange(len(lines)), draw.randrange(len(lines))
    more = draw.choice([b"\n", b"# x\n", b"% x\n", b" \t\r\n", b"end\n", lines[there], b"0\n", b"1 1 1 1\n"])
    which = draw.randrange(6)
    if which == 0:
        del lines[here]
    elif which == 1:
        lines.insert(here, more)
    elif which == 2:
        lines[here], lines[there] = lines[there], lines[here]
    elif which == 3:
        lines = lines[:here]
    elif which == 4:
        lines = [line.replace(b"\n", b"\r\n").replace(b" ", b"\t ") for line in lines]
    else:
        lines[-1] = lines[-1].rstrip(b"\n")
    return b"".join(lines)


def changed(draw: random.Random, text: bytes) -> bytes:
    """A file with a few changes."""
    for _ in range(draw.choice([1, 1, 1, 2, 4])):
        text = draw.choice([changed_bytes, changed_tokens, changed_tokens, changed_lines])(draw, text)
    return text


def changed_words(draw: random.Random, words: list[str]) -> list[str]:
    """A line of words with one change."""
    words = list(words)
    place = draw.randrange(len(words)) if words else 0
    value = draw.choice(TOKENS + ["", "-t", "--", "--help", "natural", "square", "json", "perm"]).replace("\0", "")
    which = draw.randrange(6)
    if which == 0 or not words:
        words.insert(place, value)
    elif which == 1:
        del words[place]
    elif which == 2:
        words[place] = value
    elif which == 3:
        words.insert(draw.randrange(len(words) + 1), words[place])
    elif which == 4:
        words = words[:1] + words[1:][::-1]
    else:
        words[place] = words[place].replace("=", "", 1) + draw.choice(["", "=", "x", "=1"])
    return words
