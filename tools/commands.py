"""The commands of the program, as people are told of them: what tools/make_help.py makes pages, completions and help of.

tools/check_facts.py compares the names of commands and options, the values and their limits with the program's sources.
"""
from typing import Dict, NamedTuple, Tuple

FILE = "FILE"


class Option(NamedTuple):
    """An option `--name VALUE`, with a line on it. VALUE is FILE, or a letter for a number, or words with `|` between, the first as without the option."""

    name: str
    value: str
    says: str
    least: int = 0
    most: int = 2**64 - 1

    def words(self) -> Tuple[str, ...]:
        """The words that it takes; none where it takes a file or a number."""
        return tuple(self.value.split("|")) if "|" in self.value else ()


class Command(NamedTuple):
    """A command. `usage` says which options go together, to people; the three after it the same, to the help at a terminal."""

    name: str
    purpose: str
    usage: str
    options: Tuple[Option, ...]
    # of each group, with `|` between, exactly one is given
    one_of: Tuple[str, ...]
    # the first is given only beside the second, which may be an option with a value, or several with `|` between, of which exactly one is given
    only_with: Tuple[Tuple[str, str], ...]
    prints: str
    # its own statuses; all commands share the others
    statuses: Dict[int, str]
    # words after `memplan`, and what they print
    example: Tuple[str, str]


TREE = Option("tree", FILE, "a tree file: tasks of which each leaves one block to its parent, as fronts do")
WORKFLOW = Option("workflow", FILE, "a workflow file: series-parallel tasks and their data")
GRAPH = Option("graph", FILE, "a task graph file: tasks, and the data that go from one to another")
MATRIX = Option("matrix", FILE, "a matrix in Matrix Market's coordinate format; its pattern is taken, made symmetric")
PERM = Option("perm", FILE, "its rows are eliminated in this order: the k-th number is the row that goes k-th, from 1")
IPERM = Option("iperm", FILE, "the inverse of such an order, as METIS or Scotch writes it: of METIS the v-th number is the place of row v, from 0 where a 0 stands in it, else from 1; of Scotch each row stands before its place, from 0 or from 1")
ORDERING = Option("ordering", "natural|mindeg", "in the order of the file, or by minimum degree (at most 50,000 rows)")
SHAPE = Option("shape", "triangle|square", "count the entries of one triangle of each front, or of both")
AMALGAMATE = Option("amalgamate", "Z", "merge fronts where that adds at most Z zeros, Z up to 2^40; none without it", 0, 2**40)
INPLACE = Option("inplace", "no|yes", "with yes a front is assembled in the place of its greatest child's block")
ORDER = Option("order", FILE, "an order file: the numbers of the tasks, in order, from 1; or what `post` prints")
PLAN = Option("plan", FILE, "a plan, as `plan` prints it: a plan file, or its JSON; its order is taken")
JUDGED = Option("plan", FILE, "the plan file that is judged")
FENCES = Option("fences", FILE, "the fence file that is judged, as `fence` prints it")
PRIORITY = Option("priority", FILE, "a ranking of the tasks: of those that may start, the first of it is started")
BOUND = Option("bound", "B", "the memory that there is, in the units of the input")
WORKERS = Option("workers", "W", "how many workers, 1 to 4096", 1, 4096)
EFFORT = Option("effort", "E", "how many steps a search may take, some 100 million a second; 1,000,000,000 without it")
EFFORT_BY_TASKS = Option("effort", "E", "how many steps a search of a thousand tasks may take, of more tasks more, up to 15 E; 1,000,000,000 without it")

FRONT_OPTIONS = (PERM, IPERM, ORDERING, SHAPE, AMALGAMATE, INPLACE)
MATRIX_INPUT = (MATRIX, *FRONT_OPTIONS)
TREE_INPUT = (TREE, *MATRIX_INPUT)
INPUT = (TREE, WORKFLOW, *MATRIX_INPUT)
# What stands for these in the usage of a command.
INPUTS = {
    "INPUT": ("TREE, or `--workflow FILE`", (WORKFLOW,)),
    "TREE": ("`--tree FILE`, or MATRIX", (TREE,)),
    "MATRIX": ("`--matrix FILE`, with at most one of `--perm`, `--iperm` and `--ordering`, and any of the others", MATRIX_INPUT),
}
# Of each of these groups, with `|` between, at most one is given, whichever the command.
AT_MOST_ONE = ("perm|iperm|ordering", "order|plan")
OF_A_MATRIX = tuple((option.name, "matrix") for option in FRONT_OPTIONS)

# How a run ends: what is written, and where to look.
STATUSES: Dict[int, str] = {
    0: "done; the report is on standard output",
    1: "the order is no traversal, or the plan or the fences are not accepted; a line says why",
    2: "usage: the words are no command with its options; nothing is printed",
    3: "a file is not of its format: `refused format FILE KIND LINE`",
    4: "a file passes a limit: `refused limit FILE NAME`",
    5: "the bound is below the peak: `refused bound BOUND PEAK`",
    6: "a file could not be read; nothing is printed",
    7: "the report could not be written whole",
    8: "memory ran out; nothing is printed",
    9: "the task graph is not series-parallel: `refused graph rest K`, and K arcs; or of version 2 `refused graph uses K`, `item I` or `arcs`",
    10: "a step needs more than the bound: `refused working-set STEP NEED BOUND`",
}
NO_TRAVERSAL = "the order is no traversal"

COMMANDS: Tuple[Command, ...] = (
    Command(
        name="plan",
        purpose="an order of least peak, its peak, and a certificate",
        usage="[--print text|json] (INPUT | --graph FILE [--order FILE] [--effort E])",
        options=(
            *INPUT,
            GRAPH,
            Option("order", FILE, "an order file: the plan of the graph has no higher peak than it"),
            EFFORT_BY_TASKS,
            Option("print", "text|json", "print a plan file, or one line of JSON"),
        ),
        one_of=("tree|workflow|matrix|graph",),
        only_with=(*OF_A_MATRIX, ("order", "graph"), ("effort", "graph")),
        prints="a plan file: an order of the tasks, the peak, and the claims from which it follows that no order has a lower peak. "
        "Of a task graph a plan of version 3: no order has a peak below its bound, so it is least where that is its peak, "
        "as it is wherever the graph is series-parallel",
        statuses={1: f"{NO_TRAVERSAL} of the graph"},
        example=("plan --tree examples/five.tree --print json", '{"claims":[[5,"R",5,5],[10,"R",5,5],[11,"R",10,10],[13,"R",10,0]],"order":[3,1,4,2,5],"peak":11}'),
    ),
    Command(
        name="check",
        purpose="the verdict on a plan, or on fences, whoever made them",
        usage="(INPUT | --graph FILE) (--plan FILE [--workers W] | --fences FILE)",
        options=(*INPUT, GRAPH, JUDGED, Option("workers", "W", "how many threads share the work, 1 to 4096; 1 without it", 1, 4096), FENCES),
        one_of=("tree|workflow|matrix|graph", "plan|fences"),
        only_with=(*OF_A_MATRIX, ("workers", "plan")),
        prints="`yes PEAK`, or the first objection. The options of the input have to be those that the plan was made with. "
        "Of a task graph, whose plan has a bound (version 3), `yes PEAK least` or `yes PEAK above BOUND`. "
        "Of fences `yes BOUND`: no run that keeps to them, on as many workers as they are for, uses more, and none comes to a stop",
        statuses={1: "the plan is not accepted, or the fences are not"},
        example=("check --tree examples/five.tree --plan examples/five.plan", "yes 11"),
    ),
    Command(
        name="replay",
        purpose="the peak of an order",
        usage="(INPUT | --graph FILE) (--order FILE | --plan FILE)",
        options=(*INPUT, GRAPH, ORDER, PLAN),
        one_of=("tree|workflow|matrix|graph", "order|plan"),
        only_with=OF_A_MATRIX,
        prints="`peak PEAK`, or the first place at which the order fails",
        statuses={1: NO_TRAVERSAL},
        example=("replay --tree examples/five.tree --order examples/five.postorder", "peak 15"),
    ),
    Command(
        name="post",
        purpose="the best postorder of a tree, and its peak",
        usage="TREE",
        options=TREE_INPUT,
        one_of=("tree|matrix",),
        only_with=OF_A_MATRIX,
        prints="`peak PEAK`, `order N`, N lines with one task each, `end`. No postorder has a lower peak",
        statuses={},
        example=("post --matrix examples/grid.mtx", "peak 9\norder 2\n1\n2\nend"),
    ),
    Command(
        name="tree",
        purpose="the tree of fronts of a matrix",
        usage="MATRIX",
        options=MATRIX_INPUT,
        one_of=("matrix",),
        only_with=(),
        prints="a tree file: a line for each front, with its parent, its contribution block, what it needs beside that, and its columns",
        statuses={},
        example=("tree --matrix examples/arrow.mtx --ordering mindeg", "tree 1\nnodes 3\n3 1 2 1\n3 1 2 1\n0 0 3 2\nend"),
    ),
    Command(
        name="columns",
        purpose="the columns of every front of a matrix, by the numbers of its file",
        usage="MATRIX [--order FILE | --plan FILE] [--print text|perm]",
        options=(
            *MATRIX_INPUT,
            Option("order", FILE, "an order file of the fronts, or what `post` prints: they come in this order; by rising number without it"),
            Option("plan", FILE, "a plan, as `plan` prints it, a file or its JSON: the fronts come in its order"),
            Option("print", "text|perm", "print a line for each front, or all columns as a permutation file"),
        ),
        one_of=("matrix",),
        only_with=(),
        prints="`columns N`, a line for each front with its columns, `end`. One after the other they are an order of elimination with the same fill and, where "
        "none were merged, the same fronts: `--print perm` prints that, one column on a line, as `--perm` and solvers take it",
        statuses={1: "the order is no traversal of the fronts"},
        example=("columns --matrix examples/arrow.mtx --ordering mindeg", "columns 3\n2\n3\n1 4\nend"),
    ),
    Command(
        name="fronts",
        purpose="the rows of every front of a matrix",
        usage="--matrix FILE [--perm FILE | --iperm FILE | --ordering natural|mindeg] --bound B --workers W",
        options=(
            MATRIX,
            PERM,
            IPERM,
            ORDERING,
            Option("bound", "B", "at most B rows are held at once"),
            Option("workers", "W", "how many fronts at once, 1 to 4096, on threads where they are large", 1, 4096),
        ),
        one_of=("matrix", "bound", "workers"),
        only_with=(),
        prints="`fronts M`, `rounds R`, `used U`, a line for each round and one for each front, `end`. Rows are places in the order of elimination",
        statuses={5: "the bound is below the peak of the fronts, one after the other"},
        example=(
            "fronts --matrix examples/arrow.mtx --ordering mindeg --bound 4 --workers 2",
            "fronts 3\nrounds 2\nused 4\n1 2\n3\n1 3\n2 3\n3 4\nend",
        ),
    ),
    Command(
        name="simulate",
        purpose="a run on several workers within a bound on memory",
        usage="(INPUT | --graph FILE) (--order FILE | --plan FILE) --bound B --workers W [--priority FILE]",
        options=(*INPUT, GRAPH, ORDER, PLAN, BOUND, WORKERS, PRIORITY),
        one_of=("tree|workflow|matrix|graph", "order|plan", "bound", "workers"),
        only_with=OF_A_MATRIX,
        prints="`makespan T`, `used U`, `booked B`, `events E`, a line for each event, `end`",
        statuses={1: NO_TRAVERSAL, 5: "the bound is below the peak of the order"},
        example=("simulate --tree examples/five.tree --order examples/five.order --bound 11 --workers 2 | head -n 2", "makespan 5\nused 11"),
    ),
    Command(
        name="fence",
        purpose="fences that keep every parallel run within a bound on memory, or what no run passes without any",
        usage="(INPUT | --graph FILE) [--bound B [--order FILE | --plan FILE] [--fewest no|yes]] [--workers W]",
        options=(
            *INPUT,
            GRAPH,
            ORDER,
            PLAN,
            BOUND,
            Option("workers", "W", "for runs on at most W workers, 1 to 4096; on any number of them without it", 1, 4096),
            Option("fewest", "no|yes", "with yes fences are left out that the others can do without"),
        ),
        one_of=("tree|workflow|matrix|graph",),
        only_with=(*OF_A_MATRIX, ("order", "bound"), ("plan", "bound"), ("fewest", "bound")),
        prints="a fence file: each fence is a line `FROM TO`, by which task TO waits for task FROM, or for all readers of an item. From its amounts "
        "follows that no run on so many workers that keeps to the fences passes the bound, whatever starts the tasks, and however long they take; "
        "and none comes to a stop. With a bound and no order, the order is planned, as `plan` does. Without a bound, the file has one that no run passes as "
        "the tasks stand: its fences forbid no run",
        statuses={1: NO_TRAVERSAL, 5: "the bound is below the peak of the order, or of the plan"},
        example=("fence --tree examples/five.tree --order examples/five.order --bound 16 | head -n 2", "fences 1\nbound 16"),
    ),
    Command(
        name="spill",
        purpose="the least volume that must go to disk within a bound",
        usage="(INPUT | --graph FILE) (--order FILE | --plan FILE) --bound B",
        options=(*INPUT, GRAPH, ORDER, PLAN, BOUND),
        one_of=("tree|workflow|matrix|graph", "order|plan", "bound"),
        only_with=OF_A_MATRIX,
        prints="`volume V`, `items K`, K lines `ITEM AMOUNT`, `end`; of a task graph `gaps K` and K lines `ITEM READER AMOUNT`, "
        "each of an item until this task reads it, or with 0 to the end",
        statuses={1: NO_TRAVERSAL, 10: "a step needs more for itself than the bound"},
        example=("spill --tree examples/five.tree --order examples/five.postorder --bound 11", "volume 4\nitems 1\n2 4\nend"),
    ),
    Command(
        name="segments",
        purpose="how low memory can come within each bound",
        usage="INPUT",
        options=INPUT,
        one_of=("tree|workflow|matrix",),
        only_with=OF_A_MATRIX,
        prints="two lines for each node of a tree, or each position of a workflow: from its start (`F`) and back from its end (`R`)",
        statuses={},
        example=("segments --tree examples/roots.tree", "segments 2\n1 F 0\n1 R 3 3 0\n2 F 0\n2 R 4 5 0\nend"),
    ),
    Command(
        name="reduce",
        purpose="the series-parallel workflow of a task graph",
        usage="--graph FILE [--order FILE | --plan FILE]",
        options=(
            GRAPH,
            Option("order", FILE, "an order file of the workflow's tasks: it is printed by the tasks of the graph, in place of the workflow"),
            Option("plan", FILE, "a plan of the workflow, a file or its JSON; its order is taken"),
        ),
        one_of=("graph",),
        only_with=(),
        prints="a workflow file, with a line `# K NAME` for each task: task K is task NAME of the graph, or a join if there is none. With an order of its tasks, "
        "that order by the tasks of the graph, as `post` prints one: `peak P`, `order N`, N lines with one task each, `end`. Or the arcs, or the item, in the way",
        statuses={1: f"{NO_TRAVERSAL} of the workflow", 9: "the graph is not series-parallel, or an item has several readers and none after all the others"},
        example=("reduce --graph examples/four.graph | tail -n 4", "# 1 3\n# 2 2\n# 3 4\n# 4 1"),
    ),
    Command(
        name="bound",
        purpose="what no order of a task graph has a peak below",
        usage="--graph FILE [--order FILE] [--effort E]",
        options=(
            GRAPH,
            Option("order", FILE, "an order file: its peak is told too"),
            EFFORT,
        ),
        one_of=("graph",),
        only_with=(),
        prints="`bound L` with the evidence for it, as in a plan file of version 3, `end`; beside an order `peak P` before them",
        statuses={1: NO_TRAVERSAL},
        example=("bound --graph examples/shared.graph --order examples/shared.order | head -n 2", "peak 16\nbound 16"),
    ),
    Command(
        name="upgrade",
        purpose="a file as version 2 of its format",
        usage="(--tree FILE | --workflow FILE | --graph FILE | --plan FILE [--priority FILE])",
        options=(
            TREE,
            WORKFLOW,
            GRAPH,
            Option("plan", FILE, "a plan file"),
            Option("priority", FILE, "a ranking of the tasks, in place of the plan's"),
        ),
        one_of=("tree|workflow|graph|plan",),
        only_with=(("priority", "plan"),),
        prints="the file, with a share of 0, items in place of arcs, or no priority where version 1 has none. Write it to another file",
        statuses={},
        example=("upgrade --tree examples/one.tree", "tree 2\nnodes 1\n0 7 2 0 1\nend"),
    ),
    Command(
        name="demo",
        purpose="an input made from a number, planned and checked",
        usage="(--seed S --tasks N [--kind tree|workflow] | --kind grid --rows R --cols C)",
        options=(
            Option("kind", "tree|workflow|grid", "a random tree, a random workflow, or the fronts of a grid"),
            Option("seed", "S", "the number of which it is made"),
            Option("tasks", "N", "how many tasks, 1 to 1000000", 1, 1_000_000),
            Option("rows", "R", "the height of the grid; R times C is at most 50000", 1, 50_000),
            Option("cols", "C", "the width of the grid", 1, 50_000),
        ),
        one_of=("seed|rows",),
        only_with=(("kind=grid", "rows"), ("rows", "kind=grid"), ("cols", "rows"), ("rows", "cols"), ("tasks", "seed"), ("seed", "tasks")),
        prints="`demo KIND`, `tasks N`, `positions K`, `peak P`, of trees `postorder Q`, `check yes`, `end`",
        statuses={},
        example=("demo --kind grid --rows 2 --cols 2", "demo grid\ntasks 2\npositions 5\npeak 9\npostorder 9\ncheck yes\nend"),
    ),
)
