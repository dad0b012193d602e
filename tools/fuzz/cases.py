"""Random cases: lines of words and the files that they name."""
import json
import random
import re
from collections.abc import Callable
from pathlib import Path
from typing import NamedTuple, Optional

from bench import BOUND, USAGE, Bench
from certificates import Judge
from certificates import text_of as text_of_certificate
from evidence import BoundedPlan, evidence_of, text_of
from models import SizedTasks, System, rows, shared_of, shared_system_of_graph, system_of_tree, system_of_workflow
from random_files import (
    changed,
    changed_tokens,
    changed_words,
    known_order,
    listed,
    random_certificate,
    random_graph,
    random_inverse,
    random_matrix,
    random_permutation,
    random_plan,
    random_shared_graph,
    random_tree,
    random_workflow,
    reported,
)

EXAMPLES = Path(__file__).resolve().parent.parent.parent / "examples"

Options = list[tuple[str, str]]


class Case(NamedTuple):
    """A line of words and the files that it may name."""

    words: list[str]
    files: dict[str, bytes]


class Setting(NamedTuple):
    """An input as options, its files, and where it is accepted a traversal of it, and its system, which `reduce` does not ask for."""

    options: Options
    files: dict[str, bytes]
    order: list[int]
    system: Optional[SizedTasks] = None


def example(draw: random.Random, suffix: str) -> bytes:
    return draw.choice(sorted(EXAMPLES.glob(f"*.{suffix}"))).read_bytes()


def matrix_options(draw: random.Random) -> Options:
    """Options of a matrix in any number, of which some do not go together now and then."""
    orders = [("--perm", "q"), ("--iperm", "i"), ("--ordering", draw.choice(["natural", "mindeg", "mindeg"]))]
    options = [
        ("--shape", draw.choice(["triangle", "square"])),
        ("--amalgamate", draw.choice(["0", "1", "3", "1000", "1099511627776"])),
        ("--inplace", draw.choice(["yes", "no"])),
    ]
    # no two of an order of elimination, but now and then
    chosen = draw.sample(orders, draw.choice([0, 0, 1, 1, 1, 1] if draw.random() < 0.97 else [2, 3]))
    return chosen + [option for option in options if draw.random() < 0.4]


def random_setting(draw: random.Random, bench: Bench, inputs: tuple[str, ...]) -> Setting:
    """A random input of one of these kinds."""
    kind = draw.choice(inputs)
    if kind == "tree":
        text = random_tree(draw) if draw.random() < 0.85 else example(draw, "tree")
        return setting_of(draw, [("--tree", "t")], {"t": text}, system_of_tree(text))
    if kind == "graph":
        text = random_graph(draw) if draw.random() < 0.85 else example(draw, "graph")
        return Setting([("--graph", "g")], {"g": text}, [])
    if kind == "shared graph":
        text = draw.choice([random_shared_graph, random_shared_graph, random_graph])(draw) if draw.random() < 0.85 else example(draw, "graph")
        return setting_of(draw, [("--graph", "g")], {"g": text}, shared_system_of_graph(text))
    if kind == "workflow":
        text = random_workflow(draw) if draw.random() < 0.85 else example(draw, "workflow")
        return setting_of(draw, [("--workflow", "w")], {"w": text}, system_of_workflow(text))
    text = random_matrix(draw) if draw.random() < 0.85 else example(draw, "mtx")
    size = int(next(tokens for tokens in rows(text) if len(tokens) == 3)[0])
    options = [("--matrix", "m"), *matrix_options(draw)]
    files = {"m": text, "q": random_permutation(draw, size), "i": random_inverse(draw, size)}
    bench.put(files)
    tree = bench.printed(["tree", *(f"{name}={value}" for name, value in options)])
    return setting_of(draw, options, files, system_of_tree(tree)) if tree else Setting(options, files, [1])


def setting_of(draw: random.Random, options: Options, files: dict[str, bytes], system: SizedTasks) -> Setting:
    return Setting(options, files, known_order(draw, system), system)


def order_text(draw: random.Random, order: list[int]) -> bytes:
    """Mostly the order, else another one of the same numbers, or one of an example; now and then as a report states it."""
    if draw.random() < 0.1:
        return example(draw, "order")
    return draw.choice([listed, listed, reported])(draw, order if draw.random() < 0.85 else draw.sample(order, len(order)))


def plan_text(draw: random.Random, bench: Bench, setting: Setting) -> bytes:
    """The plan that the program makes of an input, in part with other numbers; or a random one, or one of an example. Of a task graph an order with the
    bound that the program finds."""
    if draw.random() < 0.15:
        return example(draw, "plan")
    bench.put(setting.files)
    if "g" in setting.files:
        made = bounded_plan_text(bench, setting)
    else:
        made = bench.printed(["plan", *(f"{name}={value}" for name, value in setting.options)])
    if made is None or draw.random() < 0.2:
        return random_plan(draw, setting.order, draw.randrange(20))
    return made if draw.random() < 0.6 else changed_tokens(draw, made)


def bounded_plan_text(bench: Bench, setting: Setting) -> Optional[bytes]:
    """An order of a task graph with the bound that the program finds."""
    bench.put({**setting.files, "o": "".join(f"{task}\n" for task in setting.order).encode()})
    told = bench.printed(["bound", "--graph=g", "--order=o"])
    if told is None:
        return None
    (_, peak), (_, bound), *lines = rows(told)
    return text_of(BoundedPlan(setting.order, int(peak), int(bound), *evidence_of(lines)))


def planned_order_text(draw: random.Random, bench: Bench, setting: Setting) -> bytes:
    """The plan of an input as a file, or as JSON, in part with other tokens; or an order in the form that the input's own plans do not have."""
    choice = draw.random()
    if choice < 0.5:
        return plan_text(draw, bench, setting)
    if choice < 0.6:
        return text_of(BoundedPlan(setting.order, draw.randrange(9), draw.randrange(9), "need", draw.randrange(9), [], []))
    if choice < 0.8:
        bench.put(setting.files)
        made = bench.printed(["plan", "--print=json", *(f"{name}={value}" for name, value in setting.options)])
    else:
        made = json.dumps({"order": setting.order, "priority": [1]}, indent=draw.choice([None, 0, 2])).encode()
    return changed_json(draw, made) if made and draw.random() < 0.4 else made or b"{}"


def changed_json(draw: random.Random, text: bytes) -> bytes:
    """A JSON text with one of its parts replaced, left out or twice."""
    parts = re.findall(rb'"[^"]*"|[-0-9.]+|[^"]', text)
    place = draw.randrange(len(parts))
    other = [b"", parts[place] * 2, b"0", b"-0", b"1.0", b"4294967295", b"4294967296", b"null", b"{}", b"[", b"]", b",", b'"order"', b"\xff", b"1e999"]
    return b"".join([*parts[:place], draw.choice(other), *parts[place + 1 :]])


def replay_options(draw: random.Random, bench: Bench, setting: Setting) -> Options:
    if draw.random() < 0.3:
        setting.files["p"] = planned_order_text(draw, bench, setting)
        return [("--plan", "p")]
    setting.files["o"] = order_text(draw, setting.order)
    return [("--order", "o")]


def simulate_options(draw: random.Random, bench: Bench, setting: Setting) -> Options:
    options = replay_options(draw, bench, setting)
    bound = draw.choice([0, 5, 11, 22, 1000, 2**40, 2**60, 2**64 - 1, draw.randrange(2000)])
    options.append(("--bound", str(near_peak(draw, bench, setting, options) if draw.random() < 0.6 else bound)))
    options.append(("--workers", draw.choice(["1", "2", "3", "16", "4096"])))
    if draw.random() < 0.4:
        setting.files["r"] = random_permutation(draw, max(len(setting.order), 1))
        options.append(("--priority", "r"))
    return options


def fence_options(draw: random.Random, bench: Bench, setting: Setting) -> Options:
    options: Options = []
    if draw.random() < 0.8:
        options = replay_options(draw, bench, setting)
        bound = draw.choice([0, 5, 11, 1000, 2**40, 2**60, 2**64 - 1])
        options.append(("--bound", str(near_peak(draw, bench, setting, options) if draw.random() < 0.8 else bound)))
        if draw.random() < 0.3:
            # the order is planned
            options = options[1:]
    if draw.random() < (0.4 if options else 0.02):
        options.append(("--fewest", draw.choice(["yes", "yes", "no"])))
    return options + ([("--workers", draw.choice(["1", "2", "3", "16", "4096"]))] if draw.random() < 0.4 else [])


def peak_of(bench: Bench, setting: Setting, options: Options) -> int:
    """The peak of the order, or some number where it has none."""
    bench.put(setting.files)
    told = bench.printed(["replay", *(f"{name}={value}" for name, value in setting.options + options)])
    return int(told.split()[1]) if told else 10


def near_peak(draw: random.Random, bench: Bench, setting: Setting, options: Options) -> int:
    """A number at or round the peak of the order."""
    peak = peak_of(bench, setting, options)
    return max(0, peak + draw.choice([-1, 0, 0, 0, 1, 2, 10, peak]))


def spill_options(draw: random.Random, bench: Bench, setting: Setting) -> Options:
    options = replay_options(draw, bench, setting)
    bound = draw.choice([0, 5, 11, 1000, 2**40, 2**60, 2**64 - 1])
    if draw.random() < 0.8:
        peak = peak_of(bench, setting, options)
        bound = draw.randrange(peak // 2, peak + 1)
    return [*options, ("--bound", str(bound))]


def fronts_options(draw: random.Random, bench: Bench, setting: Setting) -> Options:
    if draw.random() < 0.95:
        setting.options[:] = [option for option in setting.options if option[0] in ("--matrix", "--perm", "--iperm", "--ordering")]
    bench.put(setting.files)
    # a bound of 0 is below every peak, which is told
    told = bench.run(["fronts", *(f"{name}={value}" for name, value in setting.options), "--bound=0", "--workers=1"])
    peak = int(told.report.split()[3]) if told.status == BOUND else 10
    bound = draw.choice([peak - 1, peak, peak, peak + 1, peak + draw.randrange(peak + 1), 2 * peak, 2**64 - 1])
    return [("--bound", str(bound)), ("--workers", draw.choice(["1", "2", "3", "4096"]))]


def fences_text(draw: random.Random, bench: Bench, setting: Setting) -> bytes:
    """The fences that the program makes of an input, in part with other numbers; or random ones, or those of an example."""
    if setting.system is None or draw.random() < 0.1:
        return example(draw, "fences")
    if draw.random() < 0.4:
        system = setting.system
        return text_of_certificate(random_certificate(draw, Judge(shared_of(system) if isinstance(system, System) else system)))
    options = fence_options(draw, bench, setting)
    bench.put(setting.files)
    made = bench.printed(["fence", *(f"{name}={value}" for name, value in setting.options + options)])
    if made is None:
        return example(draw, "fences")
    return made if draw.random() < 0.6 else changed_tokens(draw, made)


def check_options(draw: random.Random, bench: Bench, setting: Setting) -> Options:
    if draw.random() < 0.3:
        setting.files["f"] = fences_text(draw, bench, setting)
        return [("--fences", "f")]
    setting.files["p"] = plan_text(draw, bench, setting)
    return [("--plan", "p")] + ([("--workers", draw.choice(["1", "2", "3", "13", "4096"]))] if draw.random() < 0.5 else [])


def bound_options(draw: random.Random, _bench: Bench, setting: Setting) -> Options:
    options = [("--effort", draw.choice(["0", "1", "1000", "1000000", str(2**64 - 1)]))] if draw.random() < 0.5 else []
    if draw.random() < 0.5:
        setting.files["o"] = order_text(draw, setting.order)
        options.append(("--order", "o"))
    return options


def plan_options(draw: random.Random, bench: Bench, setting: Setting) -> Options:
    options = [("--print", draw.choice(["text", "json"]))] if draw.random() < 0.3 else []
    is_graph = any(name == "--graph" for name, _ in setting.options)
    return [*options, *bound_options(draw, bench, setting)] if is_graph else options


def columns_options(draw: random.Random, bench: Bench, setting: Setting) -> Options:
    options = [("--print", draw.choice(["text", "perm", "perm"]))] if draw.random() < 0.6 else []
    if draw.random() < 0.3:
        return options
    if draw.random() < 0.8:
        return [*options, *replay_options(draw, bench, setting)]
    bench.put(setting.files)
    setting.files["o"] = bench.printed(["post", *(f"{name}={value}" for name, value in setting.options)]) or b""
    return [*options, ("--order", "o")]


def reduce_options(draw: random.Random, bench: Bench, setting: Setting) -> Options:
    """None, or an order of the workflow that is printed without one."""
    if draw.random() < 0.4:
        return []
    bench.put(setting.files)
    text = bench.printed(["reduce", "--graph=g"]) or random_workflow(draw)
    workflow = setting_of(draw, [("--workflow", "w")], {"w": text}, system_of_workflow(text))
    options = replay_options(draw, bench, workflow)
    setting.files.update((name, workflow.files[name]) for _, name in options)
    return options


def no_options(_draw: random.Random, _bench: Bench, _setting: Setting) -> Options:
    return []


def demo_options(draw: random.Random, _bench: Bench, _setting: Setting) -> Options:
    if draw.random() < 0.4:
        sides = [("--rows", str(draw.randrange(1, 30))), ("--cols", str(draw.randrange(1, 30)))]
        return [("--kind", "grid"), *sides]
    kind = draw.choice([[], [("--kind", "tree")], [("--kind", "workflow")]])
    return kind + [("--seed", str(draw.choice([0, 1, 2**64 - 1, draw.randrange(2**64)]))), ("--tasks", str(draw.randrange(1, 400)))]


def upgrade_options(draw: random.Random, bench: Bench, setting: Setting) -> Options:
    if draw.random() < 0.6:
        return []
    setting.files["p"] = plan_text(draw, bench, setting)
    setting.options.clear()
    if draw.random() < 0.5:
        return [("--plan", "p")]
    setting.files["r"] = random_permutation(draw, max(len(setting.order), 1))
    return [("--plan", "p"), ("--priority", "r")]


class Command(NamedTuple):
    """A command: the kinds of input that it has, and its other options. What is asked of a run of it is Judge.NAME_ends."""

    inputs: tuple[str, ...]
    options: Callable[[random.Random, Bench, Setting], Options]


ALL_INPUTS = ("tree", "tree", "workflow", "workflow", "matrix")
INPUTS_AND_GRAPHS = (*ALL_INPUTS, "shared graph", "shared graph")

# A further command is a further line, here and in formats.COMMANDS.
COMMANDS = {
    "replay": Command(INPUTS_AND_GRAPHS, replay_options),
    "plan": Command(INPUTS_AND_GRAPHS, plan_options),
    "check": Command((*ALL_INPUTS, "shared graph", "shared graph"), check_options),
    "simulate": Command(INPUTS_AND_GRAPHS, simulate_options),
    "spill": Command(INPUTS_AND_GRAPHS, spill_options),
    "fence": Command(INPUTS_AND_GRAPHS, fence_options),
    "fronts": Command(("matrix",), fronts_options),
    "segments": Command(ALL_INPUTS, no_options),
    "reduce": Command(("graph", "shared graph"), reduce_options),
    "bound": Command(("shared graph",), bound_options),
    "tree": Command(("matrix",), no_options),
    "columns": Command(("matrix",), columns_options),
    "post": Command(("tree", "tree", "matrix"), no_options),
    "demo": Command((), demo_options),
    "upgrade": Command(("tree", "workflow", "shared graph"), upgrade_options),
}

# Words of commands that the program may not know yet: it is then not asked for them.
PROBES = {
    "upgrade": ["upgrade", "--tree=t"],
    "fence": ["fence", "--tree=t", "--bound=0"],
    "fronts": ["fronts", "--matrix=m", "--bound=0", "--workers=1"],
    "reduce": ["reduce", "--graph=g"],
    "bound": ["bound", "--graph=g"],
    "columns": ["columns", "--matrix=m"],
}


def known_commands(bench: Bench) -> list[str]:
    """The commands that the program knows."""
    bench.put({"t": (EXAMPLES / "five.tree").read_bytes()})
    return [name for name in COMMANDS if name not in PROBES or bench.run(PROBES[name]).status != USAGE]


def random_case(draw: random.Random, bench: Bench, commands: list[str]) -> Case:
    """A case of one of these commands."""
    command = COMMANDS[name := draw.choice(commands)]
    setting = random_setting(draw, bench, command.inputs) if command.inputs else Setting([], {}, [])
    more = command.options(draw, bench, setting)
    options = setting.options + more
    draw.shuffle(options)
    words = [name]
    for option, value in options:
        if value in setting.files and draw.random() < 0.01:
            value = draw.choice(["none", "d", "/dev/null"])
        words += [f"{option}={value}"] if draw.random() < 0.3 else [option, value]
    if draw.random() < 0.1:
        words = changed_words(draw, words)
    files = dict(setting.files)
    if files and draw.random() < 0.5:
        file = draw.choice(sorted(files))
        files[file] = changed(draw, files[file])
    return Case(words, files)
