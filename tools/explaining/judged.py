"""What is said of limits that are passed, of bounds, and of orders and plans that are judged."""

from typing import Dict, List, Optional, Tuple

from explaining.files import FORMS, File, is_number, many
from explaining.objections import OF_PLAN

LIMITS = {
    "bytes": 268_435_456,
    "order": 1_000_000,
    "entries": 10_000_000,
    "mindeg": 50_000,
    "tasks": 1_000_000,
    "positions": 4_000_001,
    "size": 1_099_511_627_776,
    "total": 1_152_921_504_606_846_976,
    "time": 1_099_511_627_776,
    "arcs": 2_000_001,
    "uses": 10_000_000,
    "steps": 10_000_000,
}


def line_of_limit(file: File, limit: str) -> Optional[int]:
    """The first line that passes a limit."""
    total, is_arc = 0, False
    for number, tokens in file.rows():
        is_arc = is_arc or tokens[0] == "arcs"
        columns = {"tree": tokens[1:3], "graph": tokens[2:3] if is_arc else tokens[:1]}.get(file.kind, tokens[1:2])
        if limit == "total" and tokens[0] not in FORMS and tokens[0] not in ("nodes", "tasks", "arcs", "items"):
            total += sum(int(it) for it in columns if is_number(it))
        if total > LIMITS["total"] or limit != "total" and any(is_number(it) and int(it) > LIMITS[limit] for it in tokens):
            return number
    return None


def of_limit(kind: str, limit: str, files: Dict[str, File]) -> List[str]:
    means = f"It passes the limit `{limit}`, which is {LIMITS[limit]:,}."
    cause = "docs/FORMATS.md, 'Limits', has all limits, and of what they are."
    if limit == "mindeg":
        means = f"Minimum degree takes at most {LIMITS[limit]:,} rows."
        cause = "Give an order from elsewhere by `--perm`, or leave `--ordering mindeg` out."
    elif limit == "total":
        means = "All sizes together, up to this line, pass 2^60."
    elif limit in ("size", "time"):
        means = f"A {limit} is more than 2^40, which is {LIMITS[limit]:,}."
        cause = "Take greater units: thousands of bytes, or milliseconds in place of nanoseconds."
    number = line_of_limit(files[kind], "order" if limit == "mindeg" else limit) if kind in files and limit not in ("bytes", "uses", "steps") else None
    return [*([files[kind].place(number)] if number else []), means, cause]


def of_bound(words: List[str], command: str, files: Dict[str, File]) -> List[str]:
    if words[0] == "bound":
        return [*within(words[1], words[2], command, files)]
    means = f"The task at place {words[1]} of the order needs {words[2]} by itself, with what it takes up and what it makes."
    return [means, f"Whatever goes to disk, --bound has to be {words[2]} or more."]


def within(bound: str, peak: str, command: str, files: Dict[str, File]) -> Tuple[str, str]:
    """What is said where the peak of an order is above a bound; without a file of an order it is the order that `fence` planned."""
    give = f"Give --bound {peak} or more"
    if command == "fronts":
        return f"Within {bound} the fronts cannot be made by their numbers: the peak of that order is {peak}.", f"{give}."
    if "order" in files:
        means = f"Within {bound} this order cannot run: its peak is {peak}."
        if "graph" in files:
            return means, f"{give}, or another order: `plan --graph FILE --order FILE` looks for one of a lower peak."
        return means, f"{give}, or another order: that of `plan` has the least peak."
    means = f"Within {bound} the order of the plan cannot run: its peak is {peak}."
    if "plan" not in files:
        means = f"Within {bound} the order that `{command or 'fence'}` planned cannot run: its peak is {peak}."
    return means, f"{give}: no order that is known fits within {bound}. `spill` tells what must go to disk where there is no more memory."


def of_graph(words: List[str], files: Dict[str, File]) -> List[str]:
    """Why a task graph has no term."""
    others = "`plan` takes series-parallel tasks alone; `replay`, `simulate` and `spill` take any graph, in an order of yours."
    if words[0] == "item":
        number = files["graph"].line_of_item(int(words[1])) if "graph" in files else 0
        where = [files["graph"].place(number)] if number else []
        means = f"Several tasks read item {words[1]}, and none of them comes after all the others, so none is sure to be the last that holds it."
        return [*where, means, f"A task that reads it after them, as one of theirs or one of its own, would be. {others}"]
    if words[0] == "arcs":
        return [f"With the arcs that are added the graph has more than {LIMITS['arcs']:,} of them: one for each reader of an item.", others]
    whose = " of uses, which has an arc for each reader of an item," if words[0] == "uses" else ""
    means = f"The graph{whose} is not series-parallel: {many(int(words[1]), 'arc')} are left, by which no tasks can be put together any more."
    return [means, f"They stand below this line, as `FROM TO`: see what runs across there. {others}"]


def tasks_left(files: Dict[str, File], task: int, before: List[int]) -> List[int]:
    """The tasks that have to run before a task and did not yet; none where no tree and no graph is there."""
    if "graph" in files:
        return sorted({one for one, other in files["graph"].arcs() if other == task and one and one not in before})
    if "tree" not in files:
        return []
    return [node for node, (_, row) in enumerate(files["tree"].nodes(), 1) if row[0] == task and node not in before]


def tasks_missing(files: Dict[str, File], order: List[int]) -> List[int]:
    """The tasks that an order has not; none where no tree and no graph is there."""
    counts = (files[kind].stated(word) for kind, word in (("tree", "nodes"), ("graph", "tasks")) if kind in files)
    return sorted(set(range(1, next(counts, 0) + 1)) - set(order))


def of_order(place: int, word: str, is_reduced: bool, files: Dict[str, File]) -> List[str]:
    """What is said of an order's first fault; `is_reduced` where its tasks are those of the workflow that `reduce` makes of the graph."""
    said = fault_of_order(place, word, {kind: file for kind, file in files.items() if not is_reduced or kind != "graph"})
    if is_reduced:
        return [*said[:-1], "The order is one of the workflow that `reduce` prints without it, by its numbers: is it one of the graph?"]
    return said


def of_another(files: Dict[str, File]) -> str:
    """Where an order that does not fit may come from: of a matrix it has other fronts with other options."""
    if "matrix" not in files:
        return "is it the order of another input?"
    file = files.get("plan")
    count = f"the plan is one of {many(file.stated('order'), 'front')}; " if file and not file.is_json() else ""
    options = "`--perm`, `--iperm`, `--ordering`, `--amalgamate`"
    return f"{count}were the options of the matrix ({options}, ..) those of the run that made it?"


def begun(sentence: str) -> str:
    return sentence[:1].upper() + sentence[1:]


def fault_of_order(place: int, word: str, files: Dict[str, File]) -> List[str]:
    file = files.get("order") or files.get("plan")
    tokens = list(file.numbered()) if file else []
    if word == "missing":
        missing = tasks_missing(files, [int(it) for _, it in tokens])
        which = f"task {missing[0]}" if missing else "a task"
        means = f"The order ends after {many(place - 1, 'place')}, and {which} is missing."
        return [means, f"Each task of the input stands in it once: {of_another(files)}"]
    number, token = tokens[place - 1] if tokens else (0, "a number")
    where = [file.place(number)] if file and number else []
    before = [int(it) for _, it in tokens[: place - 1]]
    if word == "unknown":
        means = f"Place {place} of the order has {token}, and no task has this number: tasks are numbered from 1."
        counts_from_0 = any(it == "0" for _, it in tokens)
        cause = "Does the order count from 0? Then add 1 to every number." if counts_from_0 else begun(of_another(files))
    elif word == "repeated":
        means, cause = f"Place {place} of the order has task {token}, which stood before.", "Each task stands in it once."
    else:
        left = tasks_left(files, int(token), before) if is_number(token) else []
        waits = f": task {left[0]} comes first" if left else ""
        means = f"Place {place} of the order has task {token}, before a task whose data it takes up{waits}."
        is_tree = "tree" in files or "matrix" in files
        rule = "A node comes after its children." if is_tree else "A task comes after those that make what it reads."
        cause = f"{rule} {begun(of_another(files))}" if "matrix" in files else f"{rule} Is the order turned round, or that of another input?"
    return [*where, means, cause]


def of_claim(words: List[str], files: Dict[str, File]) -> List[str]:
    other = "Was the plan changed, or made of another input, or with other options, as `--ordering` and `--inplace`?"
    other = OF_PLAN if "graph" in files else other
    file = files.get("plan")
    if words[0] == "peak":
        return [f"The order of the plan has the peak {words[1]}, and the plan says {words[2]}.", other]
    if words[0] == "root" and "graph" in files:
        bound = (file.row_behind("bound") if file else None) or (0, [])
        stated = f" {bound[1][1]}" if bound[0] else ""
        means = f"The claims do not come to the bound{stated} that the plan states: none at position {words[1]}, the last one, has this bound less 1 or more."
        return [*([file.place(bound[0])] if file and bound[0] else []), means, f"Was `bound` raised, or is a claim lost? {other}"]
    if words[0] == "root":
        means = f"No claim at position {words[1]}, the last one, has a bound of the peak less 1, so none says that the peak is least."
        return [means, f"The last claim is lost. {other}"]
    rows = [number for number, tokens in (file.rows() if file else ()) if len(tokens) == 4 and tokens[0] == words[1]]
    means = f"The claim at position {words[1]} does not follow from those above it, by the rules of `{words[2]}`."
    if words[2] == "outside":
        means = f"The input has no position {words[1]}."
    return [*([file.place(rows[0])] if file and rows else []), means, f"A claim above it is lost, or is another. {other}"]
