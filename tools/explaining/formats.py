"""What is wrong with a file that is not of its format."""

from itertools import dropwhile, takewhile
from typing import Callable, Dict, List, Tuple

from explaining.files import Case, File, foreign, form_of, is_number, many, wrong_token

SECOND_LINES = {"tree": "nodes N", "workflow": "tasks N"}


def numbers(case: Case, names: str, tokens: List[str], is_timed: bool = False) -> str:
    """What is wrong with numbers that should be those of these names."""
    wanted = names.split()
    for token in tokens[len(wanted) :]:
        if token.startswith(("#", "%")):
            return "A comment stands on a line of its own, and not behind numbers."
    for at, token in enumerate(tokens):
        wrong = wrong_token(token)
        if wrong and wanted[:1] == ["parent"] and at == 0 and token == "-1":
            wrong += "; the parent of a root is 0. Does the file count from 0? Then add 1 to every parent"
        if wrong:
            return f"{wrong}."
    if len(tokens) != len(wanted):
        version = {("tree", 5): " Five are those of `tree 2`, which has a share.", ("tree", 4): " Four are those of `tree 1`, without a share."}
        hint = version.get((case.file.kind, len(tokens)), "")
        return f"The line has {many(len(tokens), 'number')}, and {many(len(wanted), 'number')} are wanted: `{names}`.{hint}"
    return "The time is 0: it is 1 at least." if is_timed and tokens[-1].strip("0") == "" else "A number is too great, or out of place."


def tree_number(case: Case) -> str:
    if case.tokens[:1] == ["nodes"]:
        return numbers(case, "N", case.tokens[1:])
    is_second = next(case.file.rows())[1][1:] == ["2"]
    return numbers(case, "parent out extra share time" if is_second else "parent out extra time", case.tokens, True)


def workflow_number(case: Case) -> str:
    is_second = next(case.file.rows())[1][1:] == ["2"]
    names = {"task": "EXTRA SHARE TIME" if is_second else "EXTRA TIME", "par": "K", "end": ""}.get(case.tokens[0], "D")
    if case.tokens[0] == "par" and case.tokens[1:] in (["0"], ["1"]):
        return "`par` puts two terms or more side by side."
    return numbers(case, names, case.tokens[1:], case.tokens[0] == "task")


def plan_number(case: Case) -> str:
    if case.file.is_json():
        return "The tasks in the array `order` are numbers of digits alone, below 2^32."
    return next((f"{wrong_token(it)}." for it in case.tokens if it not in "FR" and wrong_token(it)), "A number is too great.")


def graph_number(case: Case) -> str:
    section = case.file.section()
    if wrong := odd_section(case):
        return wrong
    if case.tokens[0] == section and counted(case.file, "tasks")[0] < case.file.stated("tasks"):
        found, stated = counted(case.file, "tasks")
        return f"There is `tasks {stated}` above, and the file has {many(found, 'line')} for tasks: is that the right number?"
    if case.tokens[0] in ("tasks", section):
        return numbers(case, "N", case.tokens[1:])
    begins = [number for number, tokens in case.file.rows() if tokens[0] == section]
    if not begins or case.line < begins[0]:
        return numbers(case, "extra share time", case.tokens, True)
    if case.tokens == ["end"]:
        found, stated = counted(case.file, section)
        return f"`end` comes after {many(found, section[:-1])}, and there is `{section} {stated}` above: is that the right number?"
    if section == "arcs":
        return numbers(case, "from to size", case.tokens)
    if len(case.tokens) == 1:
        return "An item line is `size from`, and then the tasks that read the item: there is one number."
    return next(f"{wrong_token(it)}." for it in case.tokens if wrong_token(it))


# ---- trees and graphs


def counted(file: File, word: str) -> Tuple[int, int]:
    """How many lines of numbers stand behind a line such as `items 11`, and how many it states."""
    rows = dropwhile(lambda row: row[1][0] != word, file.rows())
    next(rows)
    return sum(1 for _ in takewhile(lambda row: row[1][0] not in ("arcs", "items", "end"), rows)), file.stated(word)


def odd_section(case: Case) -> str:
    """What is said where a graph file of one version has the section of the other; nothing where the line has no such word."""
    version, section, other = ("2", "items", "arcs") if case.file.section() == "items" else ("1", "arcs", "items")
    if case.tokens[:1] != [other]:
        return ""
    return f"Line 1 says `graph {version}`, whose section is `{section} M`; `{other}` is that of `graph {3 - int(version)}`."


def graph_section(case: Case) -> str:
    if wrong := odd_section(case):
        return wrong
    section = case.file.section()
    begins = case.file.row_behind(section)
    word = section if begins and case.line > begins[0] else "tasks"
    found, stated = counted(case.file, word) if case.file.row_behind(word) else (0, 0)
    if found <= stated:
        return SECTIONS.format("arcs M`, in version 2 `items M")
    told = f"There is `{word} {stated}` above, and the file has {many(found, 'line')} for {word}"
    return f"{told}: is that the right number?" if begins else f"{told}: was a line `{section} M` between them left out?"


def tree_count(case: Case) -> str:
    stated = case.file.stated("nodes")
    found = sum(1 for number, tokens in case.file.rows() if tokens != ["end"]) - 2
    if case.tokens[:1] == ["nodes"]:
        return "A tree has one node at least."
    ends = [number for number, tokens in case.file.rows() if tokens == ["end"]]
    if ends and ends[0] < case.line:
        return "Nothing comes after `end`."
    return f"There is `nodes {stated}` above, and the file has {many(found, 'line')} for nodes: is that the right number?"


def tree_parent(case: Case) -> str:
    stated, found = case.file.stated("nodes"), len(case.file.nodes())
    if found > stated:
        return f"There is `nodes {stated}` above, and the file has {many(found, 'line')} for nodes: is that the right number?"
    return f"The parent is {case.tokens[0]}, and there are {many(stated, 'node')}."


def ring(case: Case, suppliers: Callable[[int], List[int]], task: int) -> str:
    seen: List[int] = []
    while task not in seen:
        seen.append(task)
        task = (suppliers(task) or [task])[0]
    names = [*seen[seen.index(task) :], task]
    return ", ".join(str(it) for it in (names if len(names) <= 8 else names[:8])) + ("" if len(names) <= 8 else ", ..")


def tree_cycle(case: Case) -> str:
    nodes = case.file.nodes()
    node = [number for number, _ in nodes].index(case.line) + 1
    if nodes[node - 1][1][0] == node:
        return f"Node {node} is its own parent."
    return f"The parents of node {node} lead round in a ring and to no root: {ring(case, lambda it: [nodes[it - 1][1][0]], node)}."


def graph_cycle(case: Case) -> str:
    tasks = case.file.stated("tasks")
    rows = case.file.nodes()
    arcs = case.file.arcs()
    left = {task: [one for one, other in arcs if other == task and one] for task in range(1, tasks + 1)}
    while done := [task for task, before in left.items() if not any(it in left for it in before)]:
        for task in done:
            del left[task]
    task = [number for number, _ in rows].index(case.line) + 1
    found = ring(case, lambda it: [one for one in left.get(it, []) if one in left], task)
    return f"Each task of a ring waits for the next one: {found}."


def tree_share(case: Case) -> str:
    nodes = case.file.nodes()
    node = [number for number, _ in nodes].index(case.line) + 1
    _, (_, out, extra, share, _) = nodes[node - 1]
    blocks = sum(row[1] for _, row in nodes if row[0] == node)
    if share > blocks:
        return f"The share of node {node} is {share}, and the blocks of its children are {blocks} together."
    return f"The share of node {node} is {share}, and its own extra and out are {extra + out} together."


def graph_arc(case: Case) -> str:
    one, other = case.tokens[:2]
    if one == other:
        return f"The arc leads from task {one} to itself."
    return f"The arc leads from {one} to {other}, and there are {many(case.file.stated('tasks'), 'task')}."


def graph_item(case: Case) -> str:
    _, source, *readers = map(int, case.tokens)
    tasks = case.file.stated("tasks")
    for task in (source, *readers):
        if task > tasks:
            return f"It names task {task}, and there are {many(tasks, 'task')}."
    if 0 in readers:
        return "A reader is a task, from 1 on: what no task reads has no reader on its line."
    if source in readers:
        return f"Task {source} makes the item, and reads it too."
    return "The readers of an item rise, and none stands twice."


# ---- matrices


def banner(case: Case) -> str:
    first = case.file.tokens(1)
    if first and first[0].lower() == "%matrixmarket":
        return "The first line begins with two percent signs."
    return "The first line of a matrix file is `%%MatrixMarket matrix coordinate pattern symmetric`, or with another field and symmetry."


def matrix_field(case: Case) -> str:
    return case.file.tokens(1)[3].lower()


def entry(case: Case) -> str:
    values = {"pattern": 0, "complex": 2}.get(matrix_field(case), 1)
    for token in case.tokens[:2]:
        if wrong_token(token):
            return f"{wrong_token(token)}."
    return f"An entry of a `{matrix_field(case)}` matrix is its row, its column and {many(values, 'value')}; the line has {many(len(case.tokens), 'word')}."


def size_line(case: Case) -> str:
    if case.tokens and case.tokens[0].startswith("#"):
        return "A comment in a matrix file begins with `%`."
    return "After the first line and comments comes the line `ROWS COLUMNS ENTRIES`, three numbers, rows and columns from 1 on."


def rows_of_matrix(file: File) -> List[str]:
    return (list(file.rows())[1:2] or [(0, ["-1", "-1", "-1"])])[0][1]


def index(case: Case) -> str:
    order = rows_of_matrix(case.file)[0]
    if "0" in case.tokens[:2]:
        return f"Rows and columns are numbered from 1 to {order}: does the file count from 0?"
    return f"The entry is in row {case.tokens[0]} and column {case.tokens[1]}, and the matrix has {order} of each."


def entries(case: Case) -> str:
    found = sum(1 for _ in case.file.rows()) - 2
    return f"The size line says {rows_of_matrix(case.file)[2]} entries, and the file has {found}: was it cut off, or put together by hand?"


# ---- permutations and orders


def size_of_permutation(case: Case) -> int:
    """How many rows, where the matrix is there; else as many as there are numbers."""
    if case.file.kind in ("perm", "iperm") and "matrix" in case.files:
        return int(rows_of_matrix(case.files["matrix"])[0])
    if "plan" in case.files:
        return case.files["plan"].stated("order")
    if "tree" in case.files:
        return case.files["tree"].stated("nodes")
    return sum(1 for _ in case.file.numbered())


def odd_one(case: Case) -> str:
    """The token of a permutation's line, or of its inverse's, at which its reading stopped."""
    most, seen, at, last = size_of_permutation(case), set(), 0, 0
    if case.file.kind == "iperm" and sum(1 for _ in case.file.numbered()) == 2 * most + 1:
        return odd_listed(case, most)
    least = 0 if case.file.kind == "iperm" and counts_from_0(case.file) else 1
    for count, (number, token) in enumerate(case.file.numbered(), 1):
        at = at + 1 if number == last else 1
        last = number
        place = f"Number {at} of line {number} is {token}"
        if wrong_token(token):
            return f"{wrong_token(token)}."
        if count > most:
            return f"{place}, and it is one more than the {most} that are wanted."
        if not least <= int(token) < least + most:
            return f"{place}, and they are from {least} to {least + most - 1}{', as a 0 stands among them' if least == 0 else ''}."
        if int(token) in seen:
            return f"{place}, which stood before."
        seen.add(int(token))
    missing = next((it for it in range(least, least + most) if it not in seen), 0)
    return f"There are {many(len(seen), 'number')}, and {most} are wanted; {missing} is missing."


def counts_from_0(file: File) -> bool:
    return any(is_number(token) and int(token) == 0 for _, token in file.numbered())


def odd_listed(case: Case, most: int) -> str:
    """The same of a listing, which has a head, then each row and its place."""
    head, *tokens = [token for _, token in case.file.numbered()]
    least, seen = 0 if is_number(tokens[0]) and int(tokens[0]) == 0 else 1, set()
    if not is_number(head) or int(head) != most:
        return f"The first number is {head}, and the matrix has {many(most, 'row')}."
    for row, (vertex, place) in enumerate(zip(tokens[::2], tokens[1::2]), least):
        wrong = wrong_token(vertex) or wrong_token(place)
        if wrong:
            return f"{wrong}."
        if int(vertex) != row:
            return f"Row {vertex} stands where row {row} is the next one."
        if not least <= int(place) < least + most:
            return f"Row {row} has the place {place}, and they are from {least} to {least + most - 1}."
        if int(place) in seen:
            return f"Row {row} has the place {place}, which stood before."
        seen.add(int(place))
    return form_of(case.file.kind)


def permutation_cause(case: Case) -> str:
    if case.file.is_of_scotch() and case.file.kind == "perm":
        return "Scotch's gord writes a head and two columns, which state the inverse of the order: give the file by `--iperm`, as it is."
    numbers_there = [token for _, token in case.file.numbered()]
    if all(map(is_number, numbers_there)) and sorted(map(int, numbers_there)) == list(range(len(numbers_there))):
        if case.file.kind == "priority":
            return "The file counts from 0: add 1 to every number."
        return "The file counts from 0. What METIS writes is the inverse of the order: give it by `--iperm`, as it is. Where it is the order itself, as AMD's array, add 1."
    return form_of(case.file.kind)


def inverse_cause(case: Case) -> str:
    rows = sum(1 for _ in case.file.rows()) - 1
    if case.file.is_of_scotch() and rows != size_of_permutation(case):
        return f"Scotch's gord wrote it for {many(rows, 'row')}: is it of another matrix?"
    return form_of(case.file.kind)


def report_count(case: Case) -> str:
    rows = list(case.file.rows())
    if any(tokens == ["end"] and number < case.line for number, tokens in rows):
        return "Nothing comes after `end`."
    found = sum(len(tokens) for _, tokens in rows[2:] if tokens != ["end"])
    return f"There is `order {rows[1][1][1]}` above, and the file has {many(found, 'number')} behind it: is that the right number?"


def report_end(case: Case) -> str:
    return NO_END if case.file.is_report() else "The report of `replay` tells a peak and no order: the order that it was given is what is asked for."


def fences_number(case: Case) -> str:
    """On a line with a word only what follows it can be wrong, and lines without one have numbers alone."""
    wrong = wrong_token(case.tokens[-1])
    return f"{wrong}." if wrong else "The place of a join is from 1, and the numbers of joins and fences are below 2^32."


def plan_header(case: Case) -> str:
    if "graph" in case.files:
        return "`check --graph` takes plans of version 3, which have a bound, as `plan --graph` prints them."
    return "Version 3 is that of a task graph: `check --graph FILE` takes it." if case.tokens[1] == "3" else VERSIONS


def header(case: Case) -> str:
    kind = case.file.kind
    if len(case.tokens) == 2 and case.tokens[0] == kind:
        return "There is version 1 of this format alone." if kind == "fences" else plan_header(case) if kind == "plan" else VERSIONS
    first = next(case.file.rows(), (case.line, []))[0]
    if case.line != first:
        return f"This line is not `{SECOND_LINES[kind]}`."
    return f"The first line, `{kind} 1`, is not there."


# ---- what each refusal of a file's form means: a sentence, or what finds one

COUNT_FROM_0 = "The parent of a root is 0, and nodes are numbered from 1: does the file count from 0?"
VERSIONS = "There are the versions 1 and 2 of this format."
NO_END = "The last line, `end`, is not there: was the file cut off?"
TERMS = "A `task` takes two terms from the stack and `par K` takes K; each puts one there, and so does `data`."
ONE_TERM = "At `end` there is more than one term, or none: a `par` is missing, or a task, which would join them."
SHARES = "The share is what the task takes over from what it takes up, and no more than that or than its own need."
SECTIONS = "A line such as `{}` stands between the parts: was a line left out, or is one too many?"
Says = Callable[[Case], str]
MEANINGS: Dict[str, object] = {
    "tree number": tree_number,
    "tree count": tree_count,
    "tree parent": tree_parent,
    "tree cycle": (tree_cycle, COUNT_FROM_0),
    "tree share": (tree_share, SHARES),
    "workflow number": workflow_number,
    "workflow word": "A line begins with `data`, `task`, `par` or `end`, in small letters, and nothing comes after `end`.",
    "workflow stack-short": ("There are too few terms before this line: a line above it, such as a `data`, is missing.", TERMS),
    "workflow task-count": lambda case: f"There is `tasks {case.file.stated('tasks')}` above, and the lines for tasks are "
    f"{sum(tokens[0] == 'task' for _, tokens in case.file.rows())}: is that the right number?",
    "workflow not-one-term": (ONE_TERM, TERMS),
    "workflow share": SHARES,
    "graph number": graph_number,
    "graph section": graph_section,
    "graph arc": (graph_arc, "Tasks are numbered from 1; 0 says that no task makes it, or takes it up."),
    "graph item": (
        graph_item,
        "Behind the size stands the task that makes the item, or 0, and then the tasks that read it, in rising order: none twice, and not the one that makes it.",
    ),
    "graph cycle": graph_cycle,
    "graph share": SHARES,
    "matrix banner": banner,
    "matrix not-matrix": "The second word of the first line is `matrix`: vectors and other objects are not read.",
    "matrix array-format": "`array` is the format of dense matrices; sparse ones are written in `coordinate` format, entry by entry.",
    "matrix field": "The fourth word of the first line is `pattern`, `real`, `double`, `integer`, `unsigned-integer` or `complex`.",
    "matrix symmetry": "The fifth word of the first line is `general`, `symmetric`, `hermitian` or `skew-symmetric`.",
    "matrix size-line": size_line,
    "matrix not-square": "The matrix is not square: fronts are those of A and its transpose together.",
    "matrix too-many": entries,
    "matrix too-few": entries,
    "matrix entry": entry,
    "matrix index": index,
    "order number": lambda case: next((f"{wrong_token(it)}." for it in case.tokens if wrong_token(it)), "A number is 2^32 or more."),
    "order header": "A report that tells an order begins with `peak P` and `order N`, each with one number, as that of `post` does.",
    "order count": report_count,
    "order no-end": report_end,
    "plan section": SECTIONS.format("order N`, `peak P` or `claims C"),
    "plan order": "The order has one task on each line: is the number behind `order` right?",
    "plan number": plan_number,
    "plan priority": "The priority is empty, or has each task once.",
    "plan json": "A text that begins with `{` is read as the JSON of a plan: one object, whose member `order` is an array of tasks, as `plan --print json` prints it.",
    "plan amount": "An amount is `PLACE AMOUNT`, by rising places from 1: is the number behind `base` or `blocker` right?",
    "plan claim": "A claim is `POSITION F|R BOUND REST`, by rising positions: is the number behind `claims` right?",
    "fences section": SECTIONS.format("joins J`, `fences K` or `amounts N"),
    "fences number": fences_number,
    "fences join": "A join has the place of its item alone: is the number behind `joins` right?",
    "fences fence": "A fence is `FROM TO`: is the number behind `fences` right?",
    "fences amount": "Each amount stands on a line of its own: is the number behind `amounts` right?",
    "fences workers": "There are more workers than there may be, or `workers 0`, which stands for any number of them, has a room that is not 0.",
}
for kind in ("tree", "workflow", "graph", "plan", "fences"):
    MEANINGS[f"{kind} header"] = header
    MEANINGS[f"{kind} no-end"] = NO_END
for kind in ("perm", "priority"):
    for word in ("number", "count", "range", "repeated"):
        MEANINGS[f"{kind} {word}"] = (odd_one, permutation_cause)
        MEANINGS[f"iperm {word}"] = (odd_one, inverse_cause)


def of_format(case: Case, word: str) -> List[str]:
    form = form_of(case.file.kind)
    is_other = foreign(case.file, case.line, case.command)
    if is_other:
        return [is_other, form]
    found = MEANINGS.get(f"{case.file.kind} {word}", (form,))
    parts = found if isinstance(found, tuple) else (found, form)
    return [case.file.place(case.line), *(part(case) if callable(part) else part for part in parts)]
