"""Tells where the steps of the proofs go: by crate, by function and by goal.

    tools/costs profile                   of the store, the tables, the driver and the lines: writes the tables into
                                          docs/PROOF-COSTS.md
    tools/costs profile CRATE..           prints the same tables for these crates, with their dearest functions
    tools/costs profile --seconds LOG..   what a step, a function and a loaded module cost in processor seconds

It reads what the last check kept in each crate's out/, and proves nothing. Steps don't depend on the host. What an
earlier check left in out/ counts too, so check the crate once with no out/ before. A goal's steps are those of its
search or its answer, and of the parts of its type.

A LOG is what `rt check` wrote for one crate, and its last line is `TIME CRATE 12.3 s wall, 20.5 user`, as
`/usr/bin/time -f 'TIME CRATE %e s wall, %U user'` writes it. Give at least four of them.
"""

import os
import re
from collections import Counter, defaultdict

from lib.commands import Parser, fail
from lib.costs.records import modules_of, steps_of
from lib.repository import TOP, read, write

PAGE = f"{TOP}/docs/PROOF-COSTS.md"
BEGIN = "<!-- tools/costs profile writes what follows -->\n"
END = "<!-- the end of what tools/costs profile writes -->\n"
CRATES = ["iddqd", "iddqd_hash", "iddqd_order", "iddqd_driver", "iddqd_lines"]
# Where a goal's steps are recorded, by the module of its function, and what the table calls them.
GOAL_KINDS = {"Proof": "search", "Answers": "answer", "Goals": "type"}
# Other modules of a function that have a row of their own.
FIXED_KINDS = ["Tie", "Reads", "Layout"]
# A goal of a callee that has one `requires` alone, as `find-requires`, `find-requires-2` or `find-requires-in-Some`.
LONE = re.compile(r"(?!.*-clause-).*requires(-\d+)?(-(in|then|else)[-_].*)?")
SHOWN = 40


class Profile:
    """What the check of a crate took, in steps."""

    def __init__(self, crate):
        self.crate, self.functions, self.total, self.searched = crate, 0, 0, set()
        self.fixed, self.by_function, self.goals = Counter(), Counter(), defaultdict(Counter)
        types = []
        for module, records in modules_of(crate):
            inside = re.fullmatch(rf"Rattle-{crate}-proofs\.(.+?)\.(?:(Code|Lts)\.)?(\w+)(?:-[\d-]+)?", module)
            function, kind = (inside[1], inside[2] or inside[3]) if inside else ("", "")
            self.functions += kind == "Tie"
            for record in records:
                self.add(module, function, kind, record, types)
        for function, name, steps in types:
            self.goals[function, self.goal_of(function, name)]["type"] += steps

    def add(self, module, function, kind, record, types):
        """Counts a record. The parts of goals' types are put aside until the goals are known."""
        steps, name = steps_of(record), record["name"]
        self.total += steps
        self.by_function[function] += steps
        if kind == "Goals":
            types.append((function, name, steps))
        elif kind in GOAL_KINDS:
            self.goals[function, name][GOAL_KINDS[kind]] += steps
            if record["calls"] and kind == "Proof":
                self.searched.add((function, name))
        else:
            self.fixed[fixed_kind(module, function, kind)] += steps

    def goal_of(self, function, name):
        """The goal that has this part of a type, as `the-asks-find-requires` is of `find-requires`."""
        parts = name.split("-")
        names = ("-".join(parts[at:]) for at in range(len(parts)))
        return next((it for it in names if (function, it) in self.goals), name)

    def count(self):
        """The number of goals: those that a search proved, and those with both an answer and a proof that cites it."""
        return len(self.searched | {key for key, steps in self.goals.items() if steps["answer"] and steps["search"]})

    def dearest(self):
        """The steps of each goal, the dearest first."""
        return sorted((sum(steps.values()) for steps in self.goals.values()), reverse=True)


def fixed_kind(module, function, kind):
    """The row under which the steps count that are no goal's."""
    if "-specs." in module:
        return "definitions and contracts of `specs`"
    if kind.endswith("Lemmas") or not function:
        return "lemmas of `proofs`"
    return f"`{kind}`" if kind in FIXED_KINDS else "other modules of functions"


def needed(steps, wanted):
    """How many of these steps, in their order, make this many."""
    for number, each in enumerate(steps, 1):
        wanted -= each
        if wanted <= 0:
            return f"{number:,}"
    return "more than all" if wanted else "none"


def million(steps, digits=1):
    return f"{steps / 1e6:,.{digits}f}"


def table(head, rows):
    return f"| {' | '.join(head)} |\n|{'---|' * len(head)}\n" + "".join(f"| {' | '.join(row)} |\n" for row in rows)


def by_crate(profiles):
    head = ["crate", "functions", "goals", "million steps", "of goals", "of the types of lone `requires`",
            "a function without its goals", "goals that make half of all steps",
            "goals that make half of the goals' steps"]
    rows = []
    for it in profiles:
        steps = it.dearest()
        fixed = sum(each for kind, each in it.fixed.items() if "`specs`" not in kind and "`proofs`" not in kind)
        lone = sum(each["type"] for (_, name), each in it.goals.items() if LONE.fullmatch(name))
        rows.append([f"`{it.crate}`", f"{it.functions:,}", f"{it.count():,}",
                     million(it.total), million(sum(steps)), million(lone), million(fixed / max(1, it.functions), 2),
                     needed(steps, it.total / 2), needed(steps, sum(steps) / 2)])
    return table(head, rows)


def by_kind(profiles):
    kinds = sum((it.fixed for it in profiles), Counter())
    rows = [[kind, *(million(it.fixed[kind]) for it in profiles), million(all_of_it)]
            for kind, all_of_it in kinds.most_common()]
    return table(["million steps outside goals", *(f"`{it.crate}`" for it in profiles), "all"], rows)


def by_goal(profiles):
    found = [(sum(steps.values()), it.crate, *key, steps) for it in profiles for key, steps in it.goals.items()]
    found.sort(key=lambda row: (-row[0], *row[1:4]))
    rows = [[f"`{crate}`", f"`{function}`", f"`{goal}`", million(steps, 2), max(where, key=where.get)]
            for steps, crate, function, goal, where in found[:SHOWN]]
    steps = [row[0] for row in found]
    part = 100 * sum(steps[:SHOWN]) / max(1, sum(it.total for it in profiles))
    half, number = needed(steps, sum(steps) / 2), sum(it.count() for it in profiles)
    return (f"{half} of {number:,} goals make half of the steps of all goals. "
            f"The {len(rows)} most expensive make {part:.0f} % of all steps:\n\n"
            f"{table(['crate', 'function', 'goal', 'million steps', 'most of them for its'], rows)}")


def by_function(profiles):
    found = [(steps, it.crate, name) for it in profiles for name, steps in it.by_function.items() if name]
    found = sorted(found, reverse=True)[:SHOWN]
    return table(["crate", "function", "million steps"], [[f"`{crate}`", f"`{name}`", million(steps, 2)]
                                                          for steps, crate, name in found])


def by_condition(profiles):
    """What the types of answered conditions take, of callees with one `requires` and of those with several."""
    answered = [(goal, steps["type"]) for it in profiles for (_, goal), steps in it.goals.items() if steps["answer"]]
    lone = [steps for goal, steps in answered if LONE.fullmatch(goal)]
    clauses = [steps for goal, steps in answered if re.search(r"requires\b.*-clause-", goal)]
    return (f"The types of {len(lone)} answered lone `requires` take {million(sum(lone))} million steps. Those of "
            f"{len(clauses)} answered\nclauses of callees with several take {million(sum(clauses))} million, each at most "
            f"{million(max(clauses, default=0))}.\n")


def text_of(profiles):
    return "\n".join([by_crate(profiles), by_condition(profiles), by_kind(profiles), by_goal(profiles)])


def write_page(profiles):
    for it in profiles:
        if not it.total:
            fail(f"crates/{it.crate}/out has no steps: run rt check there, or the toolchain writes other files now")
    page, text = read(PAGE), text_of(profiles)
    if page.count(BEGIN) != 1 or page.count(END) != 1 or page.index(BEGIN) > page.index(END):
        fail(f"docs/PROOF-COSTS.md lacks the lines {BEGIN.strip()} and {END.strip()}, once each in this order")
    before, after = page[: page.index(BEGIN) + len(BEGIN)], page[page.index(END) :]
    write(PAGE, f"{before}\n{text}\n{after}")


def told_by(log):
    """The crate of a log, its processor seconds, and the thousands of modules that were loaded."""
    if not os.path.isfile(log):
        fail(f"there is no file {log}")
    text = read(log)
    time = re.search(r"^TIME (\w+) [\d.]+ s wall, ([\d.]+) user", text, re.M)
    if not time or "\nlogic=proved" not in text:
        fail(f"{log} has no line 'TIME CRATE 12.3 s wall, 20.5 user' below a proof")
    return time[1], float(time[2]), sum(map(int, re.findall(r"modules loaded=(\d+)", text))) / 1000


def solved(rows, wanted):
    """The factors by which the columns come nearest to what is wanted: the least sum of squares."""
    size = range(len(rows[0]))
    matrix = [[sum(row[i] * row[j] for row in rows) for j in size] + [sum(row[i] * y for row, y in zip(rows, wanted))]
              for i in size]
    for i in size:
        if abs(matrix[i][i]) < 1e-9:
            fail("these logs don't tell the three costs apart: give more of them")
        matrix[i] = [it / matrix[i][i] for it in matrix[i]]
        for j in size:
            if j != i:
                matrix[j] = [a - matrix[j][i] * b for a, b in zip(matrix[j], matrix[i])]
    return [row[-1] for row in matrix]


def seconds(logs):
    """What a million steps, a function and a thousand loaded modules cost, so that the sums miss by small parts."""
    if len(logs) < 4:
        fail("give at least four logs")
    told = [told_by(log) for log in logs]
    profiles = [Profile(crate) for crate, _, _ in told]
    columns = [(it.total / 1e6, it.functions, loaded) for it, (_, _, loaded) in zip(profiles, told)]
    spent = [user for _, user, _ in told]
    cost = solved([[it / user for it in row] for row, user in zip(columns, spent)], [1.0] * len(spent))
    print(f"{cost[0]:.2f} s a million steps, {cost[1]:.2f} s a function, {cost[2]:.2f} s a thousand modules loaded\n")
    rows = []
    for it, row, user in zip(profiles, columns, spent):
        parts = [a * b for a, b in zip(cost, row)]
        rows.append([f"`{it.crate}`", f"{user:.0f}", *(f"{part:.0f}" for part in parts), f"{sum(parts):.0f}"])
    print(table(["crate", "processor seconds", "steps", "functions", "modules loaded", "sum"], rows), end="")


def run(words):
    parser = Parser(__doc__)
    parser.add_argument("--seconds", metavar="LOG", nargs="+")
    parser.add_argument("crates", metavar="CRATE", nargs="*")
    given = parser.parse_args(words)
    if given.seconds:
        seconds(given.seconds)
    elif given.crates:
        profiles = [Profile(crate) for crate in given.crates]
        print(f"{text_of(profiles)}\n{by_function(profiles)}", end="")
    else:
        write_page([Profile(crate) for crate in CRATES])
