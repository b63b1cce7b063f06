"""The repository's vectors (vectors/README.md), for the tools that write cases: by their name there, packed or not."""
import gzip
import os

FOLDER = os.path.join(os.path.dirname(os.path.abspath(__file__)), '..', 'vectors')


def data(name):
    """The bytes of a file of vectors/."""
    path = os.path.join(FOLDER, name)
    with (open(path, 'rb') if os.path.exists(path) else gzip.open(path + '.gz')) as f:
        return f.read()


def lines(name):
    """Its lines."""
    return data(name).decode().splitlines()


def products(name='judge/products.bin'):
    """The products of a file of them, each 4 bytes of length and its bytes."""
    rest = data(name)
    while rest:
        length = int.from_bytes(rest[:4], 'big')
        yield rest[4:4 + length]
        rest = rest[4 + length:]
