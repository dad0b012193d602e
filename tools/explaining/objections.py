"""What is said of the evidence of a graph's plan, and of fence files, that `check` does not accept."""

from typing import Callable, Dict, List, Optional

from explaining.files import File, Row, is_number, many

OF_PLAN = "Was the plan changed, or made of another graph?"
OF_FENCES = "Was the fence file changed, or made of another input?"
OF_MATRIX = "Was the fence file changed, or made of another input, or with other options of the matrix, as `--ordering` and `--inplace`?"


class Judged:
    """A file that is judged, as far as it is there, and the words behind `no`."""

    def __init__(self, words: List[str], kind: str, files: Dict[str, File]) -> None:
        self.words, self.file, self.files = words, files.get(kind), files
        self.place = next((int(it) for it in words if is_number(it)), 0)

    def row(self, word: str, place: int = 0) -> Row:
        """The row that begins with a word, or so many rows behind it; without tokens where there is none."""
        return (self.file.row_behind(word, place) if self.file else None) or (0, [])

    def stated(self, word: str) -> str:
        """The number behind a word, as it is told: ` 5`; nothing where the file is not there."""
        tokens = self.row(word)[1]
        return f" {tokens[1]}" if len(tokens) > 1 else ""

    def tasks(self) -> str:
        """How many tasks there are, as the end of a sentence."""
        counts = [self.files[kind].stated(word) for kind, word in (("graph", "tasks"), ("tree", "nodes"), ("workflow", "tasks")) if kind in self.files]
        return f": there are {many(counts[0], 'task')}" if counts else ""

    def uses(self) -> str:
        """How many uses of items there are, as the end of a sentence."""
        return f": there are {many(self.files['graph'].uses(), 'use')}" if "graph" in self.files else ""

    def of_fences(self) -> str:
        """Where fences that do not fit may come from."""
        return OF_MATRIX if "matrix" in self.files else OF_FENCES

    def told(self, row: Row, means: str, cause: str) -> List[str]:
        return [*([self.file.place(row[0])] if self.file and row[0] else []), means, cause]


# ---- the evidence of a graph's plan


def of_need(it: Judged) -> List[str]:
    row = it.row("need")
    task = it.stated("need")
    if it.words[1] == "task":
        return it.told(row, f"The evidence is what task{task} reads and needs, and the graph has no such task{it.tasks()}.", OF_PLAN)
    what = "is there before any task has run" if task == " 0" else f"task{task} reads and needs"
    return it.told(row, f"The evidence does not show the bound{it.stated('bound')}: what {what} is less.", f"Was `bound` raised? {OF_PLAN}")


def of_set(it: Judged) -> List[str]:
    if it.words[1] == "empty":
        return it.told(it.row("first") if it.row("first")[0] else it.row("last"), "The evidence is a set of tasks, and there is none in it.", OF_PLAN)
    return it.told(it.row("base"), f"An amount of the base is told of the use of an item that the graph has not{it.uses()}.", OF_PLAN)


BLOCKERS = {
    "task": "Blocker {0} is no task of the graph{1}.",
    "rising": "Blocker {0} does not come after the one before: the tasks of a set stand in it by rising number.",
    "amounts": "An amount of blocker {0} is told of the use of an item that the graph has not{3}.",
    "sizes": "At blocker {0} the sizes to which the uses of an item are lowered are more than its size together.",
    "open": "When blocker {0} starts, a task that may have run by then, or not, takes up more than it leaves, in lowered sizes: with it, less may be there.",
    "level": "The evidence at blocker {0} does not show the bound{2}: what is there when it starts, in lowered sizes, and what it needs come to less.",
}


def of_blocker(it: Judged) -> List[str]:
    rows = [row for row in (it.file.rows() if it.file else ()) if row[1][0] == "blocker"]
    row = rows[it.place - 1] if it.place <= len(rows) else (0, [])
    means = BLOCKERS[it.words[2]].format(it.place, it.tasks(), it.stated("bound"), it.uses())
    return it.told(row, means, f"Was `bound` raised? {OF_PLAN}" if it.words[2] == "level" else OF_PLAN)


STATES = {
    "room": "To look at{0} states of so many tasks and items would take more memory than a check may: docs/REPORTS.md has the limits.",
    "order": "An order with a peak below the bound{1} was found, so there is no such bound.",
    "many": "More than{0} states were looked at, and by so many the bound{1} is not shown.",
}


def of_states(it: Judged) -> List[str]:
    means = STATES[it.words[1]].format(it.stated("states"), it.stated("bound"))
    return it.told(it.row("states"), means, f"Was `bound` raised? {OF_PLAN}" if it.words[1] == "order" else OF_PLAN)


def of_term(it: Judged) -> List[str]:
    means = "The evidence is claims on a term, and the graph has none: it is not series-parallel. `reduce --graph FILE` says why."
    return it.told(it.row("claims"), means, OF_PLAN)


# ---- fence files


def of_joins(it: Judged) -> List[str]:
    means = "The joins of the file are not those of the input: one for each item that several tasks read, and no others."
    if it.words[1] == "many":
        means = "The input has, with its joins, more tasks or more items than there may be: docs/FORMATS.md, 'Limits'."
    return it.told(it.row("joins"), means, it.of_fences())


def of_workers(it: Judged) -> List[str]:
    means = f"The room of the workers alone is more than the bound{it.stated('bound')}:{it.stated('workers')} of them with{it.stated('room')} each."
    return it.told(it.row("room"), means, it.of_fences())


FENCES = {
    "join": "Fence {0} has a join wait, and tasks alone wait{1}.",
    "tasks": "Fence {0} names what is neither a task nor a join{1}{2}.",
    "apart": "Fence {0} has a task or a join wait for itself.",
}


def of_fence(it: Judged) -> List[str]:
    joins = f", and joins:{it.stated('joins')}" if it.tasks() and it.file else ""
    return it.told(it.row("fences", it.place), FENCES[it.words[2]].format(it.place, it.tasks(), joins), it.of_fences())


def of_fences(it: Judged) -> List[str]:
    means = f"With the fences task or join {it.place} waits for itself, by a ring of fences and of what tasks read, so no run comes to its end."
    if it.words[1] == "many":
        means = "There are more items and fences together than there may be: docs/FORMATS.md, 'Limits', has `positions`."
    return it.told(it.row("fences"), means, it.of_fences())


def of_item(it: Judged) -> List[str]:
    return [f"Item {it.place} is read by the task that makes it.", it.of_fences()]


def of_amount(it: Judged) -> List[str]:
    row = it.row("amounts", it.place)
    amount = f", {row[1][0]}," if row[1] else ""
    means = f"Amount {it.place}{amount} is less than the size of its item, all of which is handed on."
    if it.words[2] == "limit":
        means = f"Amount {it.place}{amount} is above the limit `total`, which is 2^60."
    return it.told(row, means, it.of_fences())


def of_amounts(it: Judged) -> List[str]:
    means = f"The file has{it.stated('amounts')} amounts, and one is wanted for each item, those from joins included, and for each fence."
    if it.words[1] == "total":
        means = "All amounts together are above 2^62, four times the limit `total`."
    return it.told(it.row("amounts"), means, it.of_fences())


def of_bound(it: Judged) -> List[str]:
    room = "" if it.stated("room") in ("", " 0") else f", beside the room of the workers,{it.stated('room')} for each of{it.stated('workers')}"
    means = f"The amounts certify {it.place}{room}, and the file says bound{it.stated('bound')}."
    return it.told(it.row("bound"), means, f"Was `bound` lowered, or is a fence lost? {it.of_fences()}")


# Of the word behind `no`: the file that is judged, and what says more.
Says = Callable[[Judged], List[str]]
OF_PLANS: Dict[str, Says] = {"need": of_need, "set": of_set, "blocker": of_blocker, "states": of_states, "term": of_term}
OF_FENCE_FILES: Dict[str, Says] = {
    "joins": of_joins,
    "workers": of_workers,
    "fence": of_fence,
    "fences": of_fences,
    "item": of_item,
    "amount": of_amount,
    "amounts": of_amounts,
    "bound": of_bound,
}


def of_objection(words: List[str], files: Dict[str, File]) -> Optional[List[str]]:
    """What is said of an objection to evidence or to fences, of its words behind `no`; nothing of others."""
    for kind, says in (("plan", OF_PLANS), ("fences", OF_FENCE_FILES)):
        if words[:1] and words[0] in says:
            return says[words[0]](Judged(words, kind, files))
    return None
