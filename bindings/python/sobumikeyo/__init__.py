"""Sobumikeyo for Python: two samples of coded symbols side by side, and which habits they share.

A sitting has two samples. It is fed at a desk of a Store, and up to eight desks share one store. A
Report splits what was seen into contexts (what came just before) that both samples treat alike and
contexts that are one sample's own.

Each sample counts its symbols from place depth + 1 on, for contexts of every length, so that deep and
shallow trees are scored over the same acts. The symbols before that place are only what came just before.

>>> from sobumikeyo import PLAIN_WEIGHT, Kind, Sample, Store
>>> store = Store(64)
>>> store.open(0, alphabet=2, depth=1, weight=PLAIN_WEIGHT, reservation=64)
>>> store.feed_all(0, Sample.FIRST, [0, 1, 0, 1, 0, 1, 0, 1])
>>> store.feed_all(0, Sample.SECOND, [0, 0, 1, 0, 0, 1, 0, 0])
>>> report = store.report(0)
>>> report.score
-80704
>>> [(row.context.symbols(), row.counts[:2]) for row in report.rows if row.kind is Kind.SHARED]
[((1,), (5, 0))]

A call that cannot do what it was asked raises a Refusal and changes nothing. What is no argument at
all is a TypeError or a ValueError that names it. A store is used by one call at a time: it sees to
that itself, so that threads may share it. Every call is one of the C library's functions, whose code
is proved; what they promise is in docs/PROMISES.md.
"""

from sobumikeyo.charts import Chart
from sobumikeyo.files import Lost, Salvaged, SittingFile, read, salvage, write
from sobumikeyo.refusals import Refusal, Stopped
from sobumikeyo.reports import ROW_WIDTH, Context, Kind, Report, Row
from sobumikeyo.store import LARGEST_WEIGHT, PLAIN_WEIGHT, Sample, Store, store_size

__all__ = [
    "LARGEST_WEIGHT",
    "PLAIN_WEIGHT",
    "ROW_WIDTH",
    "Chart",
    "Context",
    "Kind",
    "Lost",
    "Refusal",
    "Report",
    "Row",
    "Salvaged",
    "Sample",
    "SittingFile",
    "Stopped",
    "Store",
    "read",
    "salvage",
    "store_size",
    "write",
]
