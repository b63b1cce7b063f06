#!/usr/bin/env python3
"""month_dask.py FILES..: counts a month of products with Dask, on two processes of this machine, or with --scheduler on
the machines of a cluster.

A report is a sum: each worker counts its files, the reports are added two by two where they are, and one comes back.
The files must have the same names on every machine, and each machine needs the package, with its shared library.
Debian: python3-distributed, python3-numpy.

`warpladle report --scheduler ADDRESS FILES..` does the same with the output of the command, and for more products than
the 4,096 of a report.

    PYTHONPATH=python python3 examples/month_dask.py /data/2016-06/*.eps
    python3 examples/month_dask.py --scheduler tcp://10.0.0.1:8786 /data/2016-06/*.eps
"""
from __future__ import annotations

import argparse
import json
import os
from operator import add

from distributed import Client, Future, LocalCluster

from warpladle import Report


def counted(names: list[str]) -> Report:
    """The report of some files, on a worker."""
    report = Report()
    for name in names:
        report.add(name)
    return report


def folded(client: Client, reports: list[Future]) -> Future:
    """The sum of the reports, neighbours first, so that no report travels further than it must; which two are added
    first does not matter."""
    while len(reports) > 1:
        pairs = [reports[k : k + 2] for k in range(0, len(reports), 2)]
        reports = [client.submit(add, *pair, pure=False) if len(pair) == 2 else pair[0] for pair in pairs]
    return reports[0]


def month(client: Client, names: list[str], at_once: int = 32) -> Report:
    """The report of all files, by a client's workers, each `at_once` files at a time."""
    lists = [names[k : k + at_once] for k in range(0, len(names), at_once)]
    return folded(client, client.map(counted, lists, pure=False)).result() if lists else Report()


def main() -> None:
    """Count, and print the report for a program to read."""
    parser = argparse.ArgumentParser(description=__doc__.splitlines()[0])
    parser.add_argument('files', nargs='+', metavar='FILE')
    parser.add_argument(
        '--scheduler', metavar='ADDRESS', help='of a cluster; two processes of this machine where none is named'
    )
    args = parser.parse_args()
    here = None if args.scheduler else LocalCluster(n_workers=2, threads_per_worker=1, dashboard_address=None)
    with Client(args.scheduler or here) as client:
        print(json.dumps(month(client, list(map(os.path.abspath, args.files))).as_dict()))
    if here is not None:
        here.close()


if __name__ == '__main__':
    main()
