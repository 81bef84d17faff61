"""Layers of other programs, on the way to a grid: files and databases that GDAL reads, and the frames of GeoPandas.

`reading.py` opens a source and reads its records, `systems.py` compares reference systems and moves geometries between them,
`proposing.py` chooses a grid, and `frames.py` takes GeoPandas' columns. Nothing here ends a program or writes to a stream. This package
uses `geometry` and `tables`.
"""
