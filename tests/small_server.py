"""The small IRC server of the examples, in a thread of the test."""

import importlib.util
import os
import threading

EXAMPLES = os.path.join(os.path.dirname(os.path.dirname(os.path.realpath(__file__))), "examples")


def small_server():
    """A server that listens from here on. Returns its port."""
    found = importlib.util.spec_from_file_location("small_ircd", os.path.join(EXAMPLES, "ircd.py"))
    small = importlib.util.module_from_spec(found)
    found.loader.exec_module(small)
    server = small.Server(0)
    threading.Thread(target=server.run, daemon=True).start()
    return server.port
