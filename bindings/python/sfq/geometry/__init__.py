"""Geometries: what a text means, its matrix with another, and how numbers of other programs become whole coordinates.

`shapes.py` has what `import sfq` gives; `library.py` is the border to the C library libsfq. `texts.py` and `binary.py` read and write
well-known text and binary, `grids.py` rounds to a grid, `points.py` and `boxes.py` take numbers from lists and from numpy. This
package uses no other of sfq.
"""
