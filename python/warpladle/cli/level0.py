"""`level0`: finished products, judged by the Level 0 profile."""
from __future__ import annotations

import argparse

from ..product import Product
from .check import add_judge_arguments, judge_files
from .output import Output, Status

MORE = 'As check, with 29 for the first record against the profile.'


def add_arguments(parser: argparse.ArgumentParser) -> None:
    """What it takes."""
    add_judge_arguments(parser)


def run(args: argparse.Namespace, output: Output) -> Status:
    """The worst of all files."""
    return judge_files(args, output, Product.check_level0)
