"""The README's example in Python: two clients of one group, and a server that this file plays."""

from __future__ import annotations

import json

from giqaymu import Ended, Group, Json, Place, Refusal, Watch, Why

ANNA = "00000000-0000-4000-8000-00000000000a"
BERT = "00000000-0000-4000-8000-00000000000b"
RULES = {"add": [["put", ["cat", "todo/", ["arg", "id"]], ["arg", "text"]]]}


def show(what: str, value: Json) -> None:
    """Prints a value as compact JSON."""
    print(what, json.dumps(value, ensure_ascii=False, separators=(",", ":")))


def pull(place: Place, response: dict[str, Json]) -> None:
    """A pull whose response is this one."""
    ticket = place.begin_pull()
    print("pull", ticket.body.decode())
    ended = place.end_pull(ticket, json.dumps(response).encode())
    print("applied" if ended is Ended.APPLIED else "same")


def poll(place: Place, watch: Watch) -> None:
    """Prints the rows of a watch that are new."""
    rows = place.poll(watch)
    if rows is None:
        print("unchanged")
    else:
        show("new", rows)


def main() -> None:
    """The calls of the example."""
    with Group("00000000-0000-4000-8000-000000000001", profile="p1", schema="s1", rules=RULES, places=2) as group:
        anna, bert = group.places
        anna.sit(ANNA)
        bert.sit(BERT)

        patch = [{"op": "put", "key": "n", "value": 5}]
        pull(anna, {"cookie": 1, "lastMutationIDChanges": {}, "patch": patch})
        watch = bert.watch("todo/")
        poll(bert, watch)

        print("id", anna.mutate("incr", ["n", 1], 1_700_000_000_000))
        print("id", bert.mutate("add", {"id": "x", "text": "milk"}, 1_700_000_000_001))
        show("n", bert.get("n"))
        print("there" if anna.has("todo/x") else "not there")
        poll(bert, watch)
        poll(bert, watch)

        show("pending", anna.pending())
        print("push", anna.push().decode())
        patch = [{"op": "put", "key": "n", "value": 6}, {"op": "put", "key": "todo/x", "value": "oat milk"}]
        pull(bert, {"cookie": 2, "lastMutationIDChanges": {ANNA: 1, BERT: 1}, "patch": patch})
        poll(bert, watch)
        show("pending", anna.pending())

        try:
            anna.mutate("incr", ["m", 1], 1_700_000_000_002)
        except Refusal as refusal:
            if refusal.why is not Why.REFUSED:
                raise
            print("refused with code", refusal.code)
        anna.leave()


main()
