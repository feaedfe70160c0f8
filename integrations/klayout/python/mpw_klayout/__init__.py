"""What the macros of this package do. `actions` and `windows` need KLayout; all other modules are plain Python."""
import os
import sys

# A copy that scripts/klayout_package.py made has the Python client beside this package. A clone has it in clients/python.
CLIENT = os.path.realpath(os.path.join(os.path.dirname(os.path.realpath(__file__)), "../../../../clients/python"))
if os.path.exists(os.path.join(CLIENT, "mpw_report.py")) and CLIENT not in sys.path:
    sys.path.append(CLIENT)
