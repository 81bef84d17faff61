"""sfq-scale: one query of sfq over tables of more rows than one run takes, by the workers of a Dask cluster.

`command` is the way of a query: `query` reads it, `plans` says how it is split, `programs` runs sfq and sfq-tiles here,
`cluster` runs the parts on workers, where `tasks` runs sfq, and `merging` makes one answer of theirs.
"""
from sfq import __version__ as VERSION

__all__ = ["VERSION"]
