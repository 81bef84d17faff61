"""What an import says of each layer, on standard error and in grid.json."""
from __future__ import annotations

from typing import Any, Callable

from ..geometry import grids
from ..geometry.counts import number_of
from ..layers import reading, systems
from ..tables import rules
from . import passes

# Of a record that is parted: it intersects another where any part does, and is disjoint from it where all parts are.
PREDICATES = {"ST_Intersects": "any", "ST_Disjoint": "all"}


def described(layer: reading.Layer, name: str, found: passes.Pass) -> dict[str, Any]:
    """Returns what grid.json says of a layer."""
    shift = found.shift
    made = {
        "source": layer.source.name, "layer": layer.name, "table": name, "key": found.columns[0].name, "records": found.records,
        "rows": found.rows, "invalid": found.means.invalid,
        "columns": [it.described() for it in found.columns], "coordinate_system": systems.described(layer.reference),
        "shift": {"greatest": float(f"{shift.greatest:.3g}"), "mean": float(f"{shift.mean:.3g}"), "positions": shift.positions, "moved": shift.moved},
        "merged": shift.merged, "flattened": found.flattened, "left_out": found.records - found.kept, "mended": done(found, passes.MENDED),
        "snapped": done(found, passes.SNAPPED),
        "empty_texts": dict(found.empty),
    }
    if found.has_parts:
        made["parted"] = {
            "part": found.columns[0].name, "whole": found.columns[1].name, "records": found.parted, "rows": found.parts, "touching": found.touching,
            "predicates": PREDICATES, "put_in": found.put_in, "greatest": bend(found),
        }
    return made


def done(found: passes.Pass, what: str) -> int:
    """Returns how many records were mended in this way."""
    return found.done[what]


def bend(found: passes.Pass) -> float:
    """Returns how far the farthest position that a cut put in is from its edge, in units of the source."""
    return float(f"{found.bend * float(found.means.grid.x.step):.3g}")


def report(layer: reading.Layer, name: str, found: passes.Pass, say: Callable[[str], None]) -> None:
    """Says what became of a layer: a line for the table, and one for each kind of thing that isn't as in the source."""
    label = layer.label
    say(f"{label}: {found.kept:,} of {number_of(found.records, 'record')} in {name}.csv; {found.shift.said}")
    for (done, what), count in sorted(found.counts.items()):
        say(f"{label}: {count:,} {done}: {what}{beyond(layer, found.means.grid) if what.startswith('W3') else ''}")
    own = {it.source: it.step for it in found.columns if it.is_decimal}
    if own:
        say(f"{label}: decimal numbers are whole ones, which count steps: {', '.join(f'{name} of {step}' for name, step in own.items())}")
    for column, scale in ((name, it) for name, it in found.scales.items() if name not in own):
        say(f"{label}: {column} counts steps of {scale.spelled}: {number_of(scale.moved, 'number')} moved by at most {float(scale.greatest):.3g}")
    reals = [it.source for it in found.columns if it.is_real]
    if reals:
        say(f"{label}: numbers with a point are TEXT, which sfq compares as texts: {', '.join(reals)}; --scale {reals[0]}=STEP makes whole ones")
    for column, count in found.empty.items():
        say(f"{label}: {number_of(count, 'empty text')} in {column}: sfq reads an empty field as NULL")
    renamed = [f"{it.source} is {it.name}" for it in found.columns if it.source and it.source != it.name]
    renamed = [f"the layer is {name}"] * (name != label) + renamed
    if renamed:
        say(f"{label}: {', '.join(renamed)}")
    for it in further(layer, found):
        say(f"{label}: {it}")


def further(layer: reading.Layer, found: passes.Pass) -> list[str]:
    """Returns what is said of a layer besides."""
    lines = []
    if found.has_parts:
        why = f", {found.touching:,} of them since their rings touch" if found.touching else ""
        lines.append(f"{number_of(found.parted, 'record is', 'records are')} parted into {number_of(found.parts, 'row')}{why}: {found.columns[0].name} is the key, {found.columns[1].name} that "
                     f"of the record; {number_of(found.put_in, 'position was', 'positions were')} put in at cuts, at most {bend(found):.3g} from the edges; of parts "
                     "ST_Intersects and ST_Disjoint alone say what they say of the whole")
    if found.unsnapped:
        lines.append(f"{number_of(found.unsnapped, 'record')} would be rounded anew by GEOS 3.10 or later, which neither GDAL 3.9 nor shapely 2 nor libgeos_c has here")
    if found.flattened:
        lines.append(f"{number_of(found.flattened, 'geometry without its Z or M', 'geometries without their Z or M')}")
    if found.gathered:
        lines.append(f"{number_of(found.gathered, 'collection became a geometry of a MULTI type, or an empty one', 'collections became geometries of a MULTI type, or empty ones')}")
    if not found.means.parts and any(what.startswith("W4") for _, what in found.counts):
        lines.append("--part splits records with too many positions into several rows")
    if len(found.columns) > rules.MOST_COLUMNS:
        lines.append(f"schema.sql has {rules.MOST_COLUMNS} of {len(found.columns)} columns, and the CSV all: sfq takes no more. sfq-ask takes those that a query "
                     "names, and --columns chooses some")
    if found.rows > rules.MOST_ROWS:
        lines.append(f"one run of sfq takes at most {rules.MOST_ROWS:,} rows; sfq-scale takes more (docs/SCALE.md)")
    seeming = layer.seeming()
    if seeming:
        lines.append(f"it has no geometry; {seeming} makes some of its columns")
    return lines


def beyond(layer: reading.Layer, grid: grids.Grid) -> str:
    """Returns where a layer lies, and which origin or step would take it."""
    found = reading.extent([layer])
    if found is None:
        return ""
    left, right, low, high = found
    step = float(grid.x.step)
    middle = [round((a + b) / 2 / (1000 * step)) * 1000 * grid.x.step for a, b in ((left, right), (low, high))]
    half = max(right - left, high - low) / 2 / (grids.MOST - 1000)
    where = f" (x from {left:.10g} to {right:.10g}, y from {low:.10g} to {high:.10g}; "
    if half <= step:
        return where + "--origin " + ",".join(rules.real(float(it)) for it in middle) + " takes all)"
    return where + f"no origin takes all with a step below {half:.3g})"
