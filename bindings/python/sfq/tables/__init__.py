"""Tables and queries: connections by PEP 249 over the C library libsfq_tables.

`connections.py` has what `sfq.connect` gives; `databases.py` is the border to the C library. `sources.py` takes tables from files,
columns and frames, `placeholders.py` the values for parameters, and `rules.py` says what sfq takes of a table. `parts.py` has the tokens
of a text, and `statements.py` what it names, both as the library says. This package uses `geometry` alone.
"""
