"""Cases from where people have them: a folder of CSV files in and out, and instances of other programs in."""
from __future__ import annotations

import os
import zlib
from codecs import BOM_UTF8
from typing import Callable, Dict, Optional

from ..errors import HullError, read_bytes, shown_name
from ..json_texts import Refused, parse
from . import csv_folder, egret, pypsa, unit_commitment_jl
from .case_texts import read_hull
from .notes import Notes, Object

MOST_BYTES = 1 << 29  # of a file that is unpacked
FORMS = ("hull", "csv", "unit-commitment-jl", "egret", "pypsa")
OF_FOLDERS = ("csv", "pypsa")
JSON_FORMS: Dict[str, Callable[[Object, Notes], Object]] = {
    "unit-commitment-jl": unit_commitment_jl.case_of,
    "egret": egret.case_of,
}


def unpacked(name: str) -> bytes:
    """The bytes of a file, which may be compressed by gzip, and behind a byte order mark, as some editors write it."""
    data: bytes = read_bytes(name, "an instance")
    if not data.startswith(b"\x1f\x8b"):
        return data.removeprefix(BOM_UTF8)
    found = bytearray()
    while data:  # (a file of gzip may have several members, and zeros behind them)
        unpack = zlib.decompressobj(16 + zlib.MAX_WBITS)
        try:
            found += unpack.decompress(data, MOST_BYTES - len(found) + 1)
        except zlib.error as why:
            raise HullError(f"{name}: no whole file of gzip: {why}") from None
        if not unpack.eof or len(found) > MOST_BYTES:
            raise HullError(f"{name}: no whole file of gzip, or more than {MOST_BYTES:,} bytes")
        data = unpack.unused_data.lstrip(b"\0")
    return bytes(found.removeprefix(BOM_UTF8))


def json_of(data: bytes, name: str) -> Object:
    if data.startswith(b"PK"):
        raise HullError(
            f"{name}: this is a spreadsheet or an archive: save each of its sheets as CSV, as docs/CSV.md has them"
        )
    if data.startswith((b"CDF", b"\x89HDF")):
        raise HullError(
            f"{name}: this is netCDF or HDF5: write the network by PyPSA's export_to_csv_folder, and name the folder"
        )
    if name.endswith(".csv"):
        raise HullError(f"{name}: name the folder of the CSV files, and not one of them")
    try:
        value = parse(data)
    except Refused as why:
        raise HullError(f"{name}: no JSON text: {why}") from None
    if not isinstance(value, dict):
        raise HullError(f"{name}: an object is due")
    return value


def form_of_folder(name: str) -> str:
    """Which form a folder has, by what it holds."""
    if pypsa.is_mine(name):
        return "pypsa"
    if os.path.exists(os.path.join(name, "units.csv")):
        return "csv"
    raise HullError(f"{name}: this folder has neither units.csv nor PyPSA's generators.csv and snapshots.csv")


def form_of(value: Object, name: str) -> str:
    """Which form a JSON value has, by what it holds."""
    if unit_commitment_jl.is_mine(value):
        return "unit-commitment-jl"
    if egret.is_mine(value):
        return "egret"
    if "time_periods" in value or "thermal_generators" in value:
        return "hull"
    raise HullError(f"{name}: it is no case of hull, UnitCommitment.jl or EGRET: name its form by --from")


# What is noted where a limit of a start or a stop is above what the ramp leaves, by the keys of both.
EDGES = {
    ("ramp_startup_limit", "ramp_up_limit"): "starts: power above the least is held by ramp_up_limit there too",
    ("ramp_shutdown_limit", "ramp_down_limit"): "stops: power above the least is held by ramp_down_limit there too",
}


def with_edges_noted(case: Object, notes: Notes) -> Object:
    """The case; ramps of `hull` bind at starts and stops, where those of other programs leave them to limits of their own."""
    for name, unit in case["thermal_generators"].items():
        least, most = unit["power_output_minimum"], unit["power_output_maximum"]
        for (limit, ramp), text in EDGES.items():
            if min(unit[limit], most) > least + unit[ramp]:
                notes.changed(text, name)
    return case


def read_form(name: str, notes: Notes, form: Optional[str] = None) -> Object:
    """The case of a file or folder, with notes of what isn't in it. A file is read once, since it may be a pipe."""
    if form is None and os.path.isdir(name):
        form = form_of_folder(name)
    if form in OF_FOLDERS and not os.path.isdir(name):
        raise HullError(f"{shown_name(name)}: --from {form} takes a folder, and this is none")
    if form == "csv":
        return csv_folder.read_csv(name, notes)
    if form == "pypsa":
        return with_edges_noted(pypsa.read_pypsa(name, notes), notes)
    data = unpacked(name)
    if form == "hull":
        return read_hull(data, name, notes)
    value = json_of(data, shown_name(name))
    form = form or form_of(value, shown_name(name))
    if form == "hull":
        return read_hull(data, name, notes)
    return with_edges_noted(JSON_FORMS[form](value, notes), notes)


__all__ = ["FORMS", "Notes", "read_form"]
