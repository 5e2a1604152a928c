#!/usr/bin/env python3
"""Writes the files that the comparison runs on: FOLDER/many (36,864 rows) and FOLDER/most (5,308,416 rows).

Each has request.bin, tree.bin (a linked tree) and grants.bin. The same files come out every time.
"""

import pathlib
import random
import sys

NODES = 1024
FAN_OUT = 8
EXTRA_LINKS = 512
LINES = 512

RESOURCE, SUBJECT, ACTION = 1, 2, 3
RESOURCE_ID, SCOPE, SUBJECT_ID, ACTION_ID = 1, 2, 3, 4


def wide(number):
    return number.to_bytes(2, "big")


def text(value):
    return bytes([len(value)]) + value


def attribute(code, value):
    return bytes([0, code]) + text(value)


def element(category, attributes, tag=None):
    bits = (tag is not None) + 2 * bool(attributes)
    tags = [] if tag is None else [tag]
    counts = [len(attributes)] if attributes else []
    return bytes([bits, category, *tags, *counts]) + b"".join(attributes)


def request(elements, references):
    bits = 1 + 2 * bool(references)
    out = bytes([bits, 1, len(elements)]) + b"".join(elements)
    if references:
        out += bytes([len(references)]) + b"".join(text(bytes(tags)) for tags in references)
    return out


def name(node):
    return b"records/%02d/item-%04d" % (node // 64, node)


def subject(number):
    return b"user-%02d@example.org" % number


def action(number):
    return [b"read", b"write", b"delete"][number % 3]


def below(node):
    """A resource that stands for a node and all that links lead to from it."""
    return [attribute(RESOURCE_ID, name(node)), attribute(SCOPE, b"Descendants")]


def tree(order, entries):
    """Node order[0] is the root; each node of `entries` has a link back to it, and so reaches all nodes."""
    links = [(order[(k - 1) // FAN_OUT], order[k]) for k in range(1, NODES)]
    links += [(node, order[0]) for node in entries]
    links += [(random.randrange(NODES), random.randrange(NODES)) for _ in range(EXTRA_LINKS)]
    random.shuffle(links)
    names = b"".join(text(name(node)) for node in range(NODES))
    return wide(NODES) + names + wide(len(links)) + b"".join(wide(p) + wide(c) for p, c in links)


def grants():
    """Lines of which three in four name a subject that asks."""
    lines = [(subject(random.randrange(16)), action(k), name(random.randrange(NODES))) for k in range(LINES)]
    return wide(LINES) + b"".join(text(s) + text(a) + text(r) for s, a, r in lines)


def many(root):
    """12 subjects, 3 actions, and a resource with all nodes below it."""
    elements = [element(SUBJECT, [attribute(SUBJECT_ID, subject(k))]) for k in range(12)]
    elements += [element(ACTION, [attribute(ACTION_ID, action(k))]) for k in range(3)]
    elements += [element(RESOURCE, below(root))]
    return request(elements, [])


def most(entries):
    """16 references, each to all 16 elements, in categories of 3, 3, 3, 3 and 4 elements."""
    plain = [element(SUBJECT, [attribute(SUBJECT_ID, subject(k))], 1 + k) for k in range(3)]
    plain += [element(ACTION, [attribute(ACTION_ID, action(k))], 4 + k) for k in range(3)]
    plain += [element(RESOURCE, below(entries[k]), 7 + k) for k in range(3)]
    plain += [element(4, [attribute(9, b"zone-%d" % k)], 10 + k) for k in range(3)]
    plain += [element(5, [attribute(9, b"hour-%d" % k)], 13 + k) for k in range(4)]
    tags = list(range(1, 17))
    return request(plain, [tags[k:] + tags[:k] for k in range(16)])


def main():
    if len(sys.argv) != 2:
        sys.exit("usage: generate.py FOLDER")
    random.seed(1)
    order = random.sample(range(NODES), NODES)
    entries = [order[0], order[5], order[900]]
    files = {"tree.bin": tree(order, entries[1:]), "grants.bin": grants()}
    for kind, asked in (("many", many(order[0])), ("most", most(entries))):
        folder = pathlib.Path(sys.argv[1]) / kind
        folder.mkdir(parents=True, exist_ok=True)
        for file, content in {"request.bin": asked, **files}.items():
            (folder / file).write_bytes(content)


main()
