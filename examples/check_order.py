#!/usr/bin/env python3
"""Checks of an audit of rlsdb what can be checked without knowing SQL, and uses nothing of rlsdb.

Usage: check_order.py AUDIT

Is each line in its place? Does the serial order name each transaction once, behind every one that had committed when it began?
Do the changes, put one on another in serial order, give what they give in the order of commits? It writes 'yes', or what isn't
so. Whether the replies and decisions are right needs a program that runs the statements: docs/AUDIT.md says how to make one.
"""
import json
import sys


def state_after(transactions):
    """Each object that was changed, with its last content; a row that is gone is left out."""
    state = {}
    for it in transactions:
        for name, content in it["changes"]:
            state[name] = content
    return {name: content for name, content in state.items() if content is not None}


def fault_of(lines):
    """What isn't so, or None."""
    head, *transactions, last = [json.loads(line) for line in lines]
    if head not in ({"format": 1}, {"format": 2}):
        return "the first line names no format"
    if last.get("end") != len(transactions):
        return "the last line isn't there, or counts other transactions"
    for commit, it in enumerate(transactions, 1):
        if it["commit"] != commit or not 0 <= it["snap"] < commit:
            return f"transaction {it['txn']} isn't in its place"
    by_number = {it["txn"]: it for it in transactions}
    if sorted(last["order"]) != sorted(by_number) or len(by_number) != len(transactions):
        return "the order doesn't name each transaction once"
    in_order = [by_number[number] for number in last["order"]]
    for place, it in enumerate(in_order):
        for later in in_order[place + 1:]:
            if later["commit"] <= it["snap"]:
                return f"{later['txn']} had committed when {it['txn']} began, and stands behind it"
    if state_after(in_order) != state_after(transactions):
        return "in serial order the changes end in another state"
    return None


def main():
    if len(sys.argv) != 2:
        print(__doc__)
        return 2
    with open(sys.argv[1], encoding="utf-8") as file:
        fault = fault_of(file.read().splitlines())
    print(fault or "yes")
    return 3 if fault else 0


if __name__ == "__main__":
    sys.exit(main())
