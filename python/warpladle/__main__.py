"""python3 -m warpladle"""
from .cli import enter

enter()
