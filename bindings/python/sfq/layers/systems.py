"""Reference systems of sources: which are the same, and how geometries move from one to another, by GDAL and PROJ. None of it is proved."""
from __future__ import annotations

import contextlib
import json
import re
from typing import Any, Callable, Optional

from . import proposing

# A code, and the number in it.
CODE = re.compile(r"EPSG:([0-9]{1,9})", re.I)
SAME = ["IGNORE_DATA_AXIS_TO_SRS_AXIS_MAPPING=YES", "CRITERION=EQUIVALENT_EXCEPT_AXIS_ORDER_GEOGCRS"]
# The types of a system in PROJJSON.
OF_JSON = ("GeodeticCRS", "GeographicCRS", "ProjectedCRS", "CompoundCRS", "BoundCRS", "DerivedGeodeticCRS", "DerivedGeographicCRS", "DerivedProjectedCRS")
# What names a file in the text of a system, and how that is written where PROJ looks for the file among its own grids.
FILE = re.compile(r"PARAMETERFILE|PROJ4_GRIDS|(?:grids|file|model|init)=", re.I)
OWN = r"(?:@?[a-z0-9_][a-z0-9_.+-]*,?)+"
OWN_GRID = re.compile(rf'PARAMETERFILE\s*[\[(]\s*"[^"]*"\s*,\s*"{OWN}"|PROJ4_GRIDS"\s*,\s*"{OWN}"|(?:grids|file|model|init)={OWN}(?=[\s"])', re.I)


def named(osr: Any, code: str) -> Any:
    """Returns the system of a code, its axes in the order of a map: x or longitude first. ValueError where there is none."""
    found = CODE.fullmatch(code)
    if not found:
        raise ValueError(f"{code!r} isn't the code of a reference system, such as EPSG:25832")
    system = osr.SpatialReference()
    try:
        system.ImportFromEPSG(int(found[1]))
    except RuntimeError as error:
        raise ValueError(f"GDAL doesn't know the reference system {code}: {error}") from None
    return as_on_maps(osr, system)


def of_text(osr: Any, text: Any) -> Any:
    """Returns the system of a text that a file has: well-known text, PROJJSON or a code. ValueError where it is none.

    GDAL's own call for any text isn't used: it opens the files and the URLs that a text may name.
    """
    if not isinstance(text, str):
        raise ValueError("a reference system isn't a text")
    if CODE.fullmatch(text):
        return named(osr, text)
    system = osr.SpatialReference()
    try:
        need_no_file(text)
        if text.lstrip().startswith("{"):
            system.SetFromUserInput(of_json(text))
        else:
            system.ImportFromWkt(text)
    except (RuntimeError, ValueError) as error:
        raise ValueError(f"the reference system {text.split(chr(10))[0][:60]} isn't taken: {error}") from None
    return as_on_maps(osr, system)


def of_json(text: str) -> str:
    """Returns PROJJSON written anew, so that GDAL, which has no call for it alone, takes it for nothing else. ValueError of another text."""
    try:
        found = json.loads(text, object_hook=without_files)
    except RecursionError:
        raise ValueError("it is nested too deep") from None
    if not isinstance(found, dict) or found.get("type") not in OF_JSON:
        raise ValueError("it isn't PROJJSON")
    return json.dumps({"type": found.pop("type"), **found})


def without_files(found: dict[str, Any]) -> dict[str, Any]:
    """Returns an object of PROJJSON. ValueError where it is a parameter whose value is the name of a file that isn't one of PROJ's grids."""
    if isinstance(found.get("value"), str) and not re.fullmatch(OWN, found["value"], re.I):
        raise ValueError("it names a file, which isn't read")
    return found


def as_on_maps(osr: Any, system: Any) -> Any:
    """Returns a system with its axes in the order of a map."""
    system.SetAxisMappingStrategy(osr.OAMS_TRADITIONAL_GIS_ORDER)
    return system


def need_no_file(text: str) -> None:
    """ValueError where the text of a system names a file that isn't one of PROJ's own grids: PROJ would open it, or fetch it."""
    for it in FILE.finditer(text):
        if not OWN_GRID.match(text, it.start()):
            raise ValueError("it names a file, which isn't read")


def transformation(osr: Any, source: Any, target: Any) -> Any:
    """Returns what moves positions from a system to another. ValueError where one of them names a file."""
    for it in (source, target):
        texts = [it.ExportToWkt(), it.ExportToWkt(["FORMAT=WKT2_2019"])]
        with contextlib.suppress(RuntimeError):
            texts.append(it.ExportToProj4())
        try:
            need_no_file("\n".join([*texts, ""]))
        except ValueError as error:
            raise ValueError(f"the reference system {label(it)}: {error}") from None
    return osr.CoordinateTransformation(source, target)


def are_same(one: Any, other: Any) -> bool:
    """Whether two systems are the same but for heights, and for the order of their axes, which GDAL sees to."""
    return bool(flat(one).IsSame(flat(other), SAME))


def flat(system: Any) -> Any:
    """Returns a system without its heights: that of GeoJSON has them where a position does."""
    found = system.Clone()
    found.DemoteTo2D()
    return found


def code_of(system: Any) -> Optional[str]:
    """Returns the code of a system, or None."""
    authority, code = system.GetAuthorityName(None), system.GetAuthorityCode(None)
    return f"{authority}:{code}" if authority and code else None


def label(system: Any) -> str:
    """Returns what a person calls a system: its code, else its name."""
    return code_of(system) or system.GetName() or "a system without a name"


def described(system: Any) -> Any:
    """Returns a system as grid.json has it, or None: its authority and code, and its text in WKT 2."""
    return None if system is None else {"authority": code_of(system), "wkt": system.ExportToWkt(["FORMAT=WKT2_2019"])}


def mover(osr: Any, system: Any, target: Any) -> Callable[[Any], None]:
    """Returns what moves a geometry in place from a system to another. RuntimeError where one of its positions can't be moved.

    ValueError where a system names a file. Positions move, and the straight lines between them stay straight lines.
    """
    moves = transformation(osr, system, target)

    def moved(geometry: Any) -> None:
        # An empty point of some sources has coordinates that are no numbers.
        if not geometry.IsEmpty():
            geometry.Transform(moves)

    return moved


def metres(system: Any) -> Optional[float]:
    """Returns how many metres a system's unit has, as a grid is proposed by: None where there is no system."""
    if system is None:
        return None
    return proposing.DEGREES if system.IsGeographic() else float(system.GetLinearUnits())


def unit(system: Any) -> str:
    """Returns the name of a system's unit, and `unit` where there is no system."""
    if system is None:
        return "unit"
    return str(system.GetAngularUnitsName() if system.IsGeographic() else system.GetLinearUnitsName()) or "unit"
