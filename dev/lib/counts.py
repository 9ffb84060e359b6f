"""A plugin of pytest: each test runs within a bound of time, and one line at the end counts them."""

import os
import signal

import pytest

# A test that takes longer has failed. R2U2_QUESTIONS asks for long ones.
SECONDS = 0 if "R2U2_QUESTIONS" in os.environ else 300

os.environ["PYTHONDONTWRITEBYTECODE"] = "1"


def too_long(_signal, _frame):
    raise TimeoutError(f"the test took more than {SECONDS} s")


@pytest.hookimpl(hookwrapper=True)
def pytest_runtest_protocol(item):
    before = signal.signal(signal.SIGALRM, too_long)
    signal.alarm(SECONDS)
    yield
    signal.alarm(0)
    signal.signal(signal.SIGALRM, before)


def pytest_terminal_summary(terminalreporter):
    """Keeps what the last line counts: it comes after all that pytest prints."""
    stats = terminalreporter.stats
    passed, skipped = len(stats.get("passed", [])), len(stats.get("skipped", []))
    terminalreporter.config.counted = f"{passed} passed, {len(stats.get('failed', [])) + len(stats.get('error', []))} failed, {skipped} skipped"


def pytest_unconfigure(config):
    if hasattr(config, "counted") and not config.option.collectonly:
        print(config.counted, flush=True)
