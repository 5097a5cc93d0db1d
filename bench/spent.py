"""The processor time of a program's run."""
import os
import subprocess


def spent(words, said=b""):
    """Seconds of processor time of a run, which ends well and begins its output with what is said."""
    child = subprocess.Popen(words, stdout=subprocess.PIPE)
    printed = child.stdout.read()
    _, status, usage = os.wait4(child.pid, 0)
    assert status == 0 and printed.startswith(said), (status, printed)
    return usage.ru_utime + usage.ru_stime
