"""Random scripts by group. A script is made of its group's name and a number, so the same ones come again."""
from random import Random

from .connections import connection_script
from .decks import deck_script
from .layouts import fault_script, layout_script
from .limits import limit_script
from .policies import policy_script
from .runs import mixed_script, run_script
from .seams import seam_script
from .separations import separation_script
from .signing import sign_script

GROUPS = {
    "policy": policy_script,
    "sets": separation_script,
    "layout": layout_script,
    "faults": fault_script,
    "decks": deck_script,
    "run": run_script,
    "seams": seam_script,
    "sign": sign_script,
    "mix": mixed_script,
    "limits": limit_script,
    "wire": connection_script,
}


def random_of(group, number):
    """The random numbers of a group's script of a number."""
    return Random(f"{group}-{number}")


def script_of(group, number):
    """The text of a group's script of a number."""
    return GROUPS[group](random_of(group, number)).text
