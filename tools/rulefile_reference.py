#!/usr/bin/env python3
"""What a rule file answers, written down apart from the library, for tests.

    rulefile_reference.py FILE...     one line for each file

An accepted file gives `accepted RULES LABELS GROUPS`, a refused one
`refused NUMBER LINE COLUMN`. It follows docs/FORMATS.md and docs/RULES.md by the
shortest means: chains are followed by a plain search over labels, where the library has
a matrix of what leads to what.
"""
import re
import sys

NAMES = [b"label", b"first", b"how", b"second"]
INCLUSIVE = [b"before", b"meet", b"during", b"coincide", b"start", b"finish", b"overlap", b"slice"]
EXCLUSIVE = [b"after", b"follow", b"contain"]
LABEL = re.compile(rb"[a-z][a-z0-9-]{0,15}\Z")


def led_to(rules, start):
    """The rules that a chain from the rule `start` leads to."""
    reached, labels = set(), [rules[start]["label"]]
    while labels:
        label = labels.pop()
        for i, rule in enumerate(rules):
            if i not in reached and label in (rule["first"], rule["second"]):
                reached.add(i)
                labels.append(rule["label"])
    return reached


def answer(data):
    if len(data) > 32768:
        return ("refused", 5, 0, 0)
    head, end, rest = data.partition(b"\n")
    columns = head.split(b",")
    if not end or sorted(columns) != sorted(NAMES):
        return ("refused", 1, 1, 0)
    rules, labels, line = [], [], 1
    while rest:
        line += 1
        text, end, rest = rest.partition(b"\n")
        if not end:
            return ("refused", 7, line, 0)
        fields = text.split(b",")
        if len(fields) != 4:
            return ("refused", 2, line, 0)
        for number, (column, field) in enumerate(zip(columns, fields), 1):
            if column == b"how":
                if field not in INCLUSIVE + EXCLUSIVE:
                    return ("refused", 4, line, number)
            elif not LABEL.match(field):
                return ("refused", 3, line, number)
        rule = dict(zip((c.decode() for c in columns), fields))
        known = list(labels)
        for name in ("label", "first", "second"):
            if rule[name] not in known:
                known.append(rule[name])
        if len(rules) == 48 or len(known) > 32:
            return ("refused", 5, line, 0)
        rules.append(rule)
        labels = known
    leads = [led_to(rules, i) for i in range(len(rules))]
    for i, rule in enumerate(rules):
        if rule["how"] in EXCLUSIVE and i in leads[i]:
            return ("refused", 6, i + 2, 0)
    groups = {frozenset([i] + [j for j in leads[i] if i in leads[j]]) for i in range(len(rules))}
    return ("accepted", len(rules), len(labels), len(groups))


if __name__ == "__main__":
    for path in sys.argv[1:]:
        with open(path, "rb") as file:
            print(*answer(file.read()))
