"""The intake: a folder in which products arrive; whole ones go on, bad ones are put aside with the reason.

The folders are the only state: what stands in them at the start is taken as new, so that a restart, a crash and a first run
are the same. A product is judged as it grows (`arriving`), taken into a private folder when it has settled and judged anew
from the bytes that were moved (`taking`), and only then put into its place. `loop` goes round; `telling` logs.
"""
from __future__ import annotations

from .loop import Intake, Options, OtherIntake

__all__ = ['Intake', 'Options', 'OtherIntake']
