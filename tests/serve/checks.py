"""Cases: what is wanted and got, and the end of a run of them."""
import os
import signal
import sys
import traceback

# what is ended where a run is stopped
children = []

_failed = []


def same(name, want, got):
    """Tells where two values differ."""
    if want != got:
        _failed.append(name)
        print(f"{name}:\nwant {want}\ngot  {got}", file=sys.stderr)


def holds(name, value):
    """Tells where something isn't so."""
    if not value:
        _failed.append(name)
        print(f"{name}: isn't so", file=sys.stderr)


def _stop(number, _frame):
    for child in children:
        child.kill()
    if number == signal.SIGALRM:
        print(f"{sys.argv[0]}: takes too long", file=sys.stderr)
        traceback.print_stack(file=sys.stderr)
    os._exit(128 + number)


def run(*cases, limit=120):
    """Runs cases in order, for so many seconds at most, and ends with status 0 where all is as it was wanted."""
    for number in (signal.SIGTERM, signal.SIGINT, signal.SIGALRM):
        signal.signal(number, _stop)
    signal.alarm(limit)
    for case in cases:
        try:
            case()
        except Exception:
            _failed.append(case.__name__)
            print(f"{case.__name__}:", file=sys.stderr)
            traceback.print_exc()
    sys.exit(1 if _failed else 0)
