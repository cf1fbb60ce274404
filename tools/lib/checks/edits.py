"""Checks that each mutant, of must-fail/ and of wrong/, still applies: each of its old texts stands exactly once.

A mutant of must-fail/ also has to change a value, and may take no word away that a proof file of its function names: the check
would refuse it for that name, whatever the contract says. `tools/mutants reasons --suspects` tells how that is seen.
"""

import os

from lib import edits
from lib.mutants.reasons import suspects
from lib.repository import TOP


def check():
    """What is wrong, and a line for where nothing is."""
    found = edits.paths()
    wrong = [f"{os.path.relpath(edit, TOP)}: {why}" for edit in found for why in [edits.misfit(edit)] if why]
    return [*wrong, *suspects((), edits.GATE)], f"{len(found)} edits apply, and none of must-fail/ takes away a name"
