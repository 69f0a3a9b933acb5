"""The clock of a session: the wall clock as it was when the tool began, carried on by the machine's monotonic clock.

So a wall clock that is set, in either direction, moves no tick.
"""

import time

OPENED = time.time() - time.monotonic()


def now():
    return OPENED + time.monotonic()
