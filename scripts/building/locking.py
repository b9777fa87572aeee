"""One build at a time, and none while the kit's rt works in the same crates."""

import contextlib
import fcntl
import os
import time

from building.saying import say

# How often a folder is tried that others have, in seconds.
EVERY = 0.1


def is_taken(folder):
    """Takes an open folder for this process and those that inherit it, or answers that another has it."""
    try:
        fcntl.flock(folder, fcntl.LOCK_EX | fcntl.LOCK_NB)
    except BlockingIOError:
        return False
    except OSError:
        # Some file systems have no locks.
        pass
    return True


@contextlib.contextmanager
def alone_in(folders, ending):
    """Waits until no other build and no rt works in these folders, and keeps them out. What is begun meanwhile may inherit the open
    folders that this answers: then others are kept out until that has ended too, even where this process is killed."""
    with contextlib.ExitStack() as held:
        opened, is_told = [], False
        # The kit takes them in the same order, so that neither waits for the other for ever.
        for folder in sorted({os.path.realpath(it) for it in folders}):
            opened.append(os.open(folder, os.O_RDONLY))
            held.callback(os.close, opened[-1])
            while not is_taken(opened[-1]):
                if not is_told:
                    say("waiting for another build here to end")
                is_told = True
                ending.look()
                time.sleep(EVERY)
        yield opened
