"""The client half of Replicache for one client group.

    with Replicache(push_url=.., pull_url=.., mutators={"add": add}, store="state/") as rep:
        rep.mutate.add({"id": "x", "text": "milk"})         # shown at once, and on the disk when it returns
        rep.query(lambda tx: tx.get("todo/x"))              # as of one moment
        rep.subscribe(lambda tx: tx.scan("todo/"), show)    # calls `show` with the result, whenever it differs

`Replicache` is the interface of Replicache (`docs/SYNC.md`). `Group` and its places are the edge of the library, for
programs that carry the bodies themselves.
"""

from .callbacks import UpdateNeeded
from .edge import (
    STACK,
    AskedRun,
    Del,
    Diff,
    Draft,
    Ended,
    Group,
    Json,
    Mutator,
    Pending,
    Place,
    Put,
    Reading,
    Refusal,
    Refuse,
    Row,
    Slots,
    Ticket,
    Version,
    VersionKind,
    Watch,
    Why,
    version,
)
from .groups import NotSafe
from .journal import PendingMutation
from .loops import Closed, RequestOptions
from .playing import TooLarge
from .replicache import Replicache
from .store import SetAside
from .syncing import Poster
from .transactions import QueryTransaction, ReadTransaction, WriteTransaction
from .transport import Answered, Offline, Reply, Transport

__all__ = [
    "Answered",
    "AskedRun",
    "Closed",
    "Del",
    "Diff",
    "Draft",
    "Ended",
    "Group",
    "Json",
    "Mutator",
    "NotSafe",
    "Offline",
    "Pending",
    "PendingMutation",
    "Place",
    "Poster",
    "Put",
    "QueryTransaction",
    "ReadTransaction",
    "Reading",
    "Refusal",
    "Refuse",
    "Replicache",
    "Reply",
    "RequestOptions",
    "Row",
    "Slots",
    "STACK",
    "SetAside",
    "Ticket",
    "TooLarge",
    "Transport",
    "UpdateNeeded",
    "Version",
    "VersionKind",
    "Watch",
    "Why",
    "WriteTransaction",
    "version",
]
