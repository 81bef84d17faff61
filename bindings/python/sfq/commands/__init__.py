"""The commands sfq-ask, sfq-import, sfq-export, sfq-schema and sfq-shell, a module for each, and what they are made of.

All that has to do with a run is here: statuses and the ends of runs (`endings.py`), standard streams, the files that are written
(`outputs.py`), progress, and the library that is asked (`asking.py`, `checking.py`). sfq-import has `folders.py`, `passes.py`,
`reports.py` and `rejects.py`; sfq-ask has `units.py`, `conditions.py`, `constants.py`, `caches.py`, `coverage.py` and `in_sqlite.py`;
both have `left_out.py`; sfq-shell has `prompt.py`. This package uses the three others, and none of them uses it.
"""
