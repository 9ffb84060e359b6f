"""Runs a command and returns what it took."""
import collections
import subprocess
import tempfile

Taken = collections.namedtuple('Taken', 'status seconds user system peak')


def measured(words, **streams):
    """The status of a command, its seconds, those in user and in system mode, and its peak of memory in MB.

    GNU time starts it, for what the kernel reports of a child of Python is never below Python's own peak.
    """
    with tempfile.NamedTemporaryFile('r') as told:
        status = subprocess.run(['time', '-q', '-f', '%e %U %S %M', '-o', told.name, *words], **streams).returncode
        seconds, user, system, peak = told.read().split()
    return Taken(status, float(seconds), float(user), float(system), int(peak) / 1024)
