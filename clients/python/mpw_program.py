"""The program `mpw` that belongs to these files."""
import os


def program():
    """The path of `mpw`: that of the repository which has this folder, else that of the installation, else the word itself."""
    here = os.path.dirname(os.path.realpath(__file__))
    for path in os.path.join(here, "..", "..", "mpw"), os.path.join(here, "..", "..", "..", "bin", "mpw"):
        if os.path.isfile(path) and os.access(path, os.X_OK):
            return os.path.normpath(path)
    return "mpw"
