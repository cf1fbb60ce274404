"""Lists the dearest goals of a crate, by the steps that the check took for each.

    tools/costs goals CRATE [FUNCTION]
    tools/costs goals --functions CRATE     each function instead, with all steps that are kept under its name

It reads what the last check kept in the crate's out/, and so costs nothing. A million steps take half a second to two. A
goal under `Proof` is one that the check answered by a search, one under `Answers` has its answer in proofs/, and one
under `Goals` is dear for its type alone. `tools/costs profile` adds these three up. Of a goal that was checked again
after an edit, the line of the old answer may stand beside the new one.
"""

import collections
import re

from lib.commands import Parser
from lib.costs.records import modules_of, steps_of

SHOWN = 40


def recorded(crate):
    """Each goal that the last check of a crate kept: its steps, its module and its name."""
    for module, records in modules_of(crate):
        short = re.sub(r"^Rattle-\w+-(proofs|specs)\.", "", module)
        yield from ((steps_of(record), short, record["name"]) for record in records)


def functions(found):
    """The steps of each function, which all of its modules but for their last name share."""
    steps = collections.Counter()
    for goal_steps, module, _ in found:
        steps[module.rpartition(".")[0]] += goal_steps
    return [(steps, name, "") for name, steps in steps.items() if name]


def run(words):
    parser = Parser(__doc__)
    parser.add_argument("--functions", action="store_true")
    parser.add_argument("crate", metavar="CRATE")
    parser.add_argument("function", metavar="FUNCTION", nargs="?", default="")
    given = parser.parse_args(words)
    if given.functions and given.function:
        parser.error("--functions takes no FUNCTION")
    found = [it for it in recorded(given.crate) if f".{given.function}." in f".{it[1]}." or not given.function]
    print(f"{sum(it[0] for it in found) / 1e6:8.2f} million steps in all")
    shown = functions(found) if given.functions else found
    for steps, module, goal in sorted(shown, reverse=True)[: None if given.functions else SHOWN]:
        print(f"{steps / 1e6:8.2f}  {module} {goal}".rstrip())
