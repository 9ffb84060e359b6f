"""Watches the rows of the first example: grants.py PROGRAM prints the lines of r2u2."""

import hashlib
import sys
from array import array

from r2u2 import Code, Error, Monitor, Signal, bytes_of, version

ROWS = [[1, 0], [0, 1], [1, 0], [0, 0], [0, 0], [0, 0]]


def refused(call, code):
    """The error of a call that ends with this code."""
    try:
        call()
    except Error as error:
        assert error.code == code, error.code
        return error
    raise AssertionError("no error")


def monitor_reports(program):
    """The reports of all rows, asked for one by one."""
    with Monitor(program) as monitor:
        return list(monitor.watch(ROWS))


def main():
    with open(sys.argv[1], "rb") as file:
        program = file.read()
    with Monitor(program, "# request,grant") as monitor:
        assert (monitor.width, monitor.names) == (2, ["granted"])
        assert monitor.signals == [Signal("request", 0, True), Signal("grant", 1, True)]
        assert monitor.rows == 0 and monitor.delays[0] > 0 and monitor.steps > 0 and version() > 0
        assert (monitor.most_reports, monitor.contracts) == (4, [False])
        assert bytes_of(program) > 0
        assert refused(lambda: monitor.row([0, 2]), Code.NOT_A_ROW).column == 1
        monitor.row(ROWS[1])
        monitor.reset()
        assert monitor.rows == 0 and not list(monitor.reports())
        for report in monitor.watch(ROWS):
            print(report)
    with Monitor(program) as monitor:
        assert monitor.table(ROWS) == {"granted": ["T", "T", "F", "T", "T", "T"]}
    with Monitor(program, digest=hashlib.sha256(program).digest()) as monitor:
        monitor.row(ROWS[1])
        assert [str(report) for report in monitor.all_reports()] == ["granted:0,T"] and monitor.all_reports() == []
        monitor.reset()
        numbers = array("q", [number for row in ROWS for number in row])
        assert monitor.row_many(numbers[:6]) + monitor.row_many(memoryview(numbers)[6:]) == monitor_reports(program)
        for bad, column in (([0, 2], 1), ([0], 1), ([0, 2**70], 1), ([0, 1, 0], 2)):
            monitor.reset()
            error = refused(lambda: monitor.row_many([*ROWS, bad, *ROWS]), Code.NOT_A_ROW)
            assert (error.column, error.taken, error.reports) == (column, 6, monitor_reports(program))
        assert monitor.row_many([]) == [] and monitor.rows == 6 and len(monitor.row_many(ROWS, runs=True)) < 6
    refused(lambda: Monitor(program, digest=bytes(32)), Code.DAMAGED)
    assert refused(lambda: Monitor(program[:-1]), Code.REFUSED).fault.text == "short"


if __name__ == "__main__":
    main()
