"""Libraries that are loaded before the program."""

import os
import subprocess
import threading

FOLDER = os.path.dirname(os.path.realpath(__file__))
building = threading.Lock()


def built(room, name):
    """The library of this name, built in this folder."""
    library = os.path.join(room, f"{name}.so")
    with building:
        if not os.path.exists(library):
            source = os.path.join(FOLDER, f"{name}.c")
            subprocess.run(["gcc", "-shared", "-fPIC", "-O2", "-o", library, source, "-ldl"], check=True)
    return library
