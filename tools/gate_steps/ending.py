"""How a script ends: with a status, and where that isn't 0 or 1 with a line that says why."""
import os
import sys
import traceback
from typing import Callable, NoReturn

from .children import Ended, Stopped, end_by, stop_by_signals
from .terminal import hold_streams, say


def end_with(work: Callable[[bool], int], failed: int) -> NoReturn:
    """Ends the script with the status of its work, which is told whether there is a standard output; with `failed` if a file
    or the output can't be written, or the script itself has a mistake."""
    stop_by_signals()
    try:
        status = work(hold_streams())
    except Ended as fault:
        say(fault.why)
        status = fault.status
    except Stopped as fault:
        say("told to end, so nothing more is checked")
        end_by(fault.number)
    except OSError as fault:
        name = os.fsdecode(fault.filename) if isinstance(fault.filename, (str, bytes)) else "a file for a while"
        say(f"{name}: {fault.strerror}")
        status = failed
    except Exception:  # else Python would end with 1, which here means a fault in the zones
        traceback.print_exc()
        say("this is a mistake of the script: please report the lines above")
        status = failed
    sys.exit(status)
