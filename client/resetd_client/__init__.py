"""A client of the reset coordinator `resetd`, without dependencies beyond Python's standard library.

Which class or function to use
    a service that is one node                       Member: begins, confirms, and says when to talk
    many services of a host behind one process       Gateway there, and Served (or three files) in each
    to look, once                                    Port.show, which returns a View
    a member's or gateway's orders, at the proxy     AtFront: no client and no order book, and the wake-ups too
    to give orders, each carried out once            Orders, with its own client (1 to 16) and a folder
    either of the two, by the address                orders_of(port, client, folder)
    to be woken                                      wakes_of(port, signals, orders): the AtFront itself, a Follower of the file of
                                                     signals where it is on this host, Watched at the proxy, else Clock
    to see each change                               views(port), where the address is one of the proxy
    to retry while the coordinator is away           patiently(call), for calls outside Member and Gateway
    asyncio                                          the module resetd_client.aio
    on the command line                              resetctl

    port = Port("unix:/run/resetd-proxy/order")      # or HOST:PORT, tls:HOST:PORT, or several with commas between
    orders = Orders(port, 3, "/var/lib/check3")      # client 3, whose last order is kept in this folder
    orders.order("reset", node=3)                    # Reply(kind='started', step=17)
    port.show().node(3)                              # Node(node=3, group=1, mode='ready', parent=0, ..)

Which object is for which thread
    Port, Orders                                     any threads at once; an Orders takes them one after the other
    AtFront                                          the one thread that follows
    Member, Gateway                                  one thread in `follow`; `stop` from any thread and from a signal's handler
    Member.in_run, Member.run                        any threads; in_run keeps others out, so keep its body short
    Follower, Watched, Stream, Clock                 the one thread that waits with it
    View, Node, Link, Run, Reply                     any: they do not change

What is raised
    Each exception is a ResetdError, beside the OSError of a file. After Away or Restless make the same call again;
    OutOfRun says that a message belongs to another run; all others need a person (`needs_person`). Each function names the
    exceptions that it raises.

Messages for a person go to the logger `resetd_client`, or to the function that a caller passes as `told`.

docs/SERVICES.md says what a service has to do, and why.
"""

from .address import Credentials
from .answers import (Away, Fault, Faulted, Garbled, NotNow, NotTaken, Refusal, Refused, Reply)
from .at_front import AtFront, EarlierFront, orders_of, wakes_of
from .errors import BadWords, InLoop, ResetdError, Unreadable, Untrusted
from .fence import Fence, StoreWentBack
from .files import Held, hold, keep, read
from .following import LOOK_SECONDS
from .gateway import Gateway
from .limits import CLIENTS, GROUPS, NODES
from .member import Member, OutOfRun, Run, Work
from .orders import CountLost, CountNotFound, Orders, find_count
from .newest import Past
from .port import Port, TooLong, patiently
from .rule import Due
from .seats import Served
from .signals import Clock, Follower, Stream, Wake, Wakes
from .starts import Shelf, Starts
from .store_file import NoStore, Restless
from .topology import BadTopology
from .view import Link, Node, View
from .watching import Watched, views

__version__ = "0.17.0"  # that of the first heading of CHANGELOG.md

__all__ = [
    "AtFront", "Away", "BadTopology", "BadWords", "CLIENTS", "Clock", "CountLost", "CountNotFound", "Credentials", "Due",
    "EarlierFront", "Fault", "Faulted", "Fence", "Follower", "GROUPS", "Garbled", "Gateway", "Held", "InLoop", "LOOK_SECONDS", "Link",
    "Member", "NODES", "NoStore", "Node", "NotNow", "NotTaken", "Orders", "OutOfRun", "Past", "Port", "Refusal", "Refused",
    "Reply", "ResetdError", "Restless", "Run", "Served", "Shelf", "Starts", "StoreWentBack", "Stream", "TooLong", "Unreadable",
    "Untrusted", "View", "Wake", "Wakes", "Watched", "Work", "find_count", "hold", "keep", "orders_of", "patiently", "read", "views", "wakes_of",
]
