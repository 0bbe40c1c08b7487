#!/usr/bin/env python3
"""Writes the example pattern files beside this script, from the tables in it.

Each file holds one automaton with both patterns of a question side by side: X is
the first pattern's start, Y the second's. `make.py --check` writes nothing and
fails where a file is not what its table says.
"""
import pathlib
import sys

EVENTS = ["READ", "STABLE", "DROP", "DRYHOP", "CRASH", "WARM",
          "CAP", "VENT", "TRANSFER", "SAMPLE", "CLOCKBACK", "CLOCKON"]
OTHER = "any other"


def number(value):
    """A number in groups of seven bits, lowest first, in its shortest form."""
    groups = []
    while value >= 128:
        groups.append(128 + value % 128)
        value //= 128
    return bytes(groups + [value])


def mask(states, names):
    return sum(1 << states.index(name) for name in names)


def question(*patterns, letters=len(EVENTS)):
    """The bytes of a pattern file for two patterns, each (start, finals, table).

    A table has a row for each state: event names to the states they lead to;
    OTHER stands for the events that the row does not name.
    """
    states = [name for _, _, table in patterns for name in table]
    assert len(set(states)) == len(states) <= 64
    rows = []
    for _, _, table in patterns:
        for row in table.values():
            for event in EVENTS[:letters]:
                rows.append(mask(states, row.get(event, row.get(OTHER, []))))
    finals = [name for _, ends, _ in patterns for name in ends]
    starts = [mask(states, start) for start, _, _ in patterns]
    values = [len(states), letters, mask(states, finals)] + rows + starts
    return b"".join(map(number, values))


def stable_gravity():
    """A tank may move on after two stable readings; is the tidied pattern the same?"""
    before = {
        "waiting": {"READ": ["read"], OTHER: ["waiting"]},
        "read": {"STABLE": ["stable"], "DROP": ["waiting"], "CLOCKBACK": ["waiting"], OTHER: ["read"]},
        "stable": {"STABLE": ["ready"], "DROP": ["waiting"], "CLOCKBACK": ["read"], OTHER: ["stable"]},
        "ready": {"DROP": ["waiting"], "CLOCKBACK": ["stable"], OTHER: ["ready"]},
    }
    after = {
        "waiting'": {"READ": ["read'"], OTHER: ["waiting'"]},
        "read'": {"STABLE": ["stable'"], "DROP": ["waiting'"], "CLOCKBACK": ["waiting'"], OTHER: ["read'"]},
        "stable'": {"STABLE": ["ready'"], "DROP": ["waiting'"], "CLOCKBACK": ["read'"], OTHER: ["stable'"]},
        "ready'": {"DROP": ["waiting'"], OTHER: ["ready'"]},
    }
    return question((["waiting"], ["ready"], before), (["waiting'"], ["ready'"], after))


def recent_drop():
    """Was there a DROP among the last two events? Guessed by three states, or remembered by four."""
    guessing = {
        "watching": {"DROP": ["watching", "last"], OTHER: ["watching"]},
        "last": {OTHER: ["last but one"]},
        "last but one": {},
    }
    remembering = {
        "none": {"DROP": ["now"], OTHER: ["none"]},
        "now": {"DROP": ["both"], OTHER: ["before"]},
        "before": {"DROP": ["now"], OTHER: ["none"]},
        "both": {"DROP": ["both"], OTHER: ["before"]},
    }
    return question((["watching"], ["last", "last but one"], guessing), (["none"], ["now", "before", "both"], remembering))


def checklist():
    """Still in work until each of eleven events has been seen; may that be 'always in work'?"""
    listed = {}
    for event in EVENTS[:11]:
        listed["no %s yet" % event] = {event: ["%s seen" % event], OTHER: ["no %s yet" % event]}
        listed["%s seen" % event] = {OTHER: ["%s seen" % event]}
    missing = ["no %s yet" % event for event in EVENTS[:11]]
    always = {"in work": {OTHER: ["in work"]}}
    return question((missing, missing, listed), (["in work"], ["in work"], always), letters=11)


def second_sample():
    """After a dry hopping two samples were wanted, and now one is; is anything refused that was accepted?"""
    before = {
        "no hops": {"DRYHOP": ["hopped"], OTHER: ["no hops"]},
        "hopped": {"SAMPLE": ["sampled"], OTHER: ["hopped"]},
        "sampled": {"SAMPLE": ["ready"], "DRYHOP": ["hopped"], "WARM": ["hopped"], OTHER: ["sampled"]},
        "ready": {"DRYHOP": ["hopped"], "WARM": ["hopped"], OTHER: ["ready"]},
    }
    after = {
        "no hops'": {"DRYHOP": ["hopped'"], OTHER: ["no hops'"]},
        "hopped'": {"SAMPLE": ["ready'"], OTHER: ["hopped'"]},
        "ready'": {"DRYHOP": ["hopped'"], "WARM": ["hopped'"], OTHER: ["ready'"]},
    }
    return question((["no hops"], ["ready"], before), (["no hops'"], ["ready'"], after))


def first_answer():
    """The example of the scope: three states and one letter."""
    return bytes([0x03, 0x01, 0x05, 0x02, 0x01, 0x04, 0x01, 0x04])


EXAMPLES = {
    "first-answer": first_answer,
    "stable-gravity": stable_gravity,
    "recent-drop": recent_drop,
    "checklist": checklist,
    "second-sample": second_sample,
}


def main():
    here = pathlib.Path(__file__).resolve().parent
    check = sys.argv[1:] == ["--check"]
    wrong = []
    for name, make in EXAMPLES.items():
        path = here / (name + ".pattern")
        if not check:
            path.write_bytes(make())
        elif not path.exists() or path.read_bytes() != make():
            wrong.append(path.name)
    if wrong:
        sys.exit("not what make.py writes: " + ", ".join(wrong))


if __name__ == "__main__":
    main()
