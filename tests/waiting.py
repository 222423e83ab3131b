"""Waiting for what a test expects."""
import time


def wait_for(what, found, limit, fault, pause=time.sleep):
    """Asks until something is found, and returns it. Raises the fault if nothing is found within so many seconds."""
    end = time.monotonic() + limit
    while True:
        it = found()
        if it:
            return it
        if time.monotonic() > end:
            raise fault(f"{what}: not within {limit} seconds")
        pause(0.02)


def waiting(fault, pause=time.sleep):
    """What waits so many seconds until something is found, and else raises the fault: `until(what, limit, found)`."""
    return lambda what, limit, found: wait_for(what, found, limit, fault, pause)
