"""A member after a gateway: a line for each time that it begins or may talk, with the moment. usage: member.py FOLDER"""

import os
import sys
import time

sys.dont_write_bytecode = True
sys.path.insert(0, os.path.join(os.path.dirname(os.path.abspath(__file__)), "..", "..", "client"))
from resetd_client import Served  # noqa: E402

folder = sys.argv[1]
served, talks = Served(folder), False
while True:
    epoch = served.wanted()
    if epoch is not None:
        print(f"begins {time.monotonic_ns()}", flush=True)
        served.has_begun(f"epoch {epoch}\n")
    if served.tag() is not None and not talks:
        print(f"talks {time.monotonic_ns()}", flush=True)
    talks = served.tag() is not None
    served.wait()
