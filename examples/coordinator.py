"""The client library, from the folder client/ beside this one, both in a clone and after an installation."""

import json
import os
import sys

sys.path.insert(0, os.path.join(os.path.dirname(os.path.realpath(__file__)), "..", "client"))
from resetd_client import (  # noqa: E402, F401
    CLIENTS, AtFront, Away, Clock, CountNotFound, Credentials, Follower, Gateway, Held, Member, NotTaken, Orders, OutOfRun, Port,
    ResetdError, Served, Stream, Untrusted, Work, keep, orders_of, patiently,
    read, wakes_of)
from resetd_client.address import CREDENTIALS  # noqa: E402, F401


def ask(address, request, seconds=10):
    """One request and its answer, whatever it says. Raises Away if none came."""
    try:
        return json.loads(Port(address, seconds).raw(request))
    except ValueError as fault:
        raise Away(fault) from fault
