"""Damaged products: whatever the bytes are, the module answers with a value or with a refusal that has words."""
import random

from warpladle import Product, Refused, Report, Watch

PLACES = list(range(20)) + list(range(1485, 1497)) + list(range(2640, 3010))


def damaged(rng, data):
    """The product with a few bytes changed, most of them in headers and totals, or cut, or longer."""
    out = bytearray(data)
    starts = Product(data).rows['start'].tolist()
    for _ in range(rng.randrange(1, 4)):
        at = rng.choice([rng.choice(PLACES), rng.choice(starts) + rng.randrange(27), rng.randrange(len(out))])
        if at < len(out):
            out[at] = rng.choice([0, 1, 8, 13, 32, 48, 49, 57, 120, 255, rng.randrange(256)])
    if rng.random() < 0.1:
        return bytes(out) + bytes(rng.randrange(30))
    return bytes(out[: rng.randrange(len(out))]) if rng.random() < 0.1 else bytes(out)


def test_whatever_the_bytes_are(given, samples):
    rng = random.Random(20261116)
    cases = [
        case for case in given.lines('requests/six.jsonl')[:40] if case['answer'][0] == 'rows' and 'pieces' not in case
    ]
    whole = [(samples / 'rich.eps').read_bytes(), *map(given.product, cases)]
    seen = set()
    for _ in range(10000):
        data = damaged(rng, rng.choice(whole))
        product = Product(data)
        calls = (
            lambda: product.verdict,
            product.level0,
            lambda: product.fields,
            lambda: product.record(3),
            lambda: product.cut('2016-06-05', '2016-06-06'),
            lambda: product.join(product),
            lambda: product.is_cut_of(product),
            lambda: Watch().feed(data),
            product.listing,
        )
        for call in calls:
            try:
                call()
            except Refused as refused:
                assert refused.words
                seen.add(refused.number)
        refused = Report().add(product)
        assert refused is None or refused.words
    assert len(seen & {*range(1, 18), 27, 29}) >= 15, seen  # test_refusals has each
