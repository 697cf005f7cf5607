"""A page in a browser that shows the nodes, the links and resets in progress as they change: `resetd-page --help`.

It is one more client of the proxy, one that needs no right but `show` and `watch`, and it sends no orders.
"""

import os

PAGE = os.path.join(os.path.dirname(os.path.abspath(__file__)), "page.html")
CONTENT_POLICY = "default-src 'none'; script-src 'unsafe-inline'; style-src 'unsafe-inline'; connect-src 'self'"
EACH_SECONDS = 0.05  # the shortest time between two updates of a page
POLL_SECONDS = 2.0  # the longest time
