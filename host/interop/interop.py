#!/usr/bin/python3
"""Real fonts beside the proved library: the side of fontTools and HarfBuzz.

    interop.py jobs  FOLDER FONT..   a job for each item variation store of the fonts
    interop.py rows  FOLDER FONT..   what was built, decompiled by fontTools, beside the fonts' own rows
    interop.py shape FOLDER FONT..   hb-shape's advances with our HVAR beside those of the fonts as they came

`jobs` writes NAME.job, and a line 'AXES NAME' for each into the file `jobs`. Then src/lib.rs builds
NAME.MODE.store, .ids and .map with NAME.MODE.answer (refusal number and place), which the other two read.
What is not as it should be ends the program with a message and status 1.
"""

import json
import subprocess
import sys
from pathlib import Path
from struct import pack
from typing import NamedTuple

from fontTools.misc.fixedTools import floatToFixed
from fontTools.ttLib import TTFont
from fontTools.ttLib.tables import otTables
from fontTools.ttLib.tables._c_m_a_p import CmapSubtable
from fontTools.ttLib.tables.DefaultTable import DefaultTable
from fontTools.ttLib.tables.otBase import OTTableReader, OTTableWriter

HB_SHAPE = "/usr/bin/hb-shape"  # Debian's
MODES = (0, 1)
BY_GLYPH = "HVAR by glyph"  # a set for each glyph's advance, in glyph order
NO_ROW = 0xFFFFFFFF  # the index that stands for no variation
PRIVATE = 0xF0000  # where every glyph gets a character


class Store(NamedTuple):
    """What a job is made of. A row is a list of pairs of a region's number and a value."""

    name: str
    axes: int
    regions: list
    rows: list
    own: tuple = ("-", "-")  # subtables and bytes in the font

    def by_coordinates(self, row):
        return {self.regions[region]: value for region, value in row if value}


def expect(holds, *words):
    if not holds:
        sys.exit("interop: " + " ".join(map(str, words)))


# Stores as fontTools reads them


def regions_of(store):
    """Start, peak and end on each axis, as the integers of F2Dot14."""
    listed = store.VarRegionList.Region if store.VarRegionList else []
    return [
        tuple(tuple(floatToFixed(at, 14) for at in (a.StartCoord, a.PeakCoord, a.EndCoord)) for a in region.VarRegionAxis)
        for region in listed
    ]


def rows_of(store):
    """The rows of each subtable."""
    return [[list(zip(data.VarRegionIndex, row)) for row in data.Item] if data else [] for data in store.VarData]


def stores_of(font):
    """The name and the store of each table that has one."""
    for tag in font.keys():
        if tag == "CFF2":
            kept = getattr(font[tag].cff.topDictIndex[0], "VarStore", None)
            store = kept and kept.otVarStore
        elif tag in ("HVAR", "VVAR", "MVAR", "GDEF", "COLR", "BASE", "avar"):
            store = getattr(getattr(font[tag], "table", None), "VarStore", None)
        else:
            continue
        if store is not None:
            yield tag, store


def advance_rows(font):
    """The row of each glyph's advance, in glyph order."""
    table, glyphs = font["HVAR"].table, font.getGlyphOrder()
    indexes = [table.AdvWidthMap.mapping[glyph] for glyph in glyphs] if table.AdvWidthMap else range(len(glyphs))
    rows = rows_of(table.VarStore)
    return [[] if index == NO_ROW else rows[index >> 16][index & 0xFFFF] for index in indexes]


def bytes_of(table, font):
    writer = OTTableWriter()
    table.compile(writer, font)
    return writer.getAllData()


def read_store(data):
    store = otTables.VarStore()
    store.decompile(OTTableReader(data), TTFont())
    return store


# Jobs

# The most regions of a job (docs/RULES.md, J3).
REGIONS = 32767


def stores(path):
    font, stem = TTFont(path), Path(path).stem
    axes = len(font["fvar"].axes)
    for tag, store in stores_of(font):
        rows = [row for subtable in rows_of(store) for row in subtable]
        own = len(store.VarData), len(bytes_of(store, font))
        yield Store(f"{stem} {tag}", axes, regions_of(store), rows, own)
        if tag == "HVAR":
            yield Store(f"{stem} {BY_GLYPH}", axes, regions_of(store), advance_rows(font))


def made():
    """Stores at a limit of docs/RULES.md and just past it, where no font at hand is."""
    tents = [((0, peak, peak),) for peak in range(1, 12)]
    many = [((0, n % 256, n // 256),) for n in range(REGIONS + 1)]
    for more in (0, 1):
        tent = [(axis - 32, 256 * axis, 16384 - axis) for axis in range(64 + more)]
        yield Store(f"made {64 + more} axes", 64 + more, [tuple(tent), tuple(tent[::-1])], [[(1, 70000), (0, -1)]])
        yield Store(f"made {REGIONS + more} regions", 1, many[: REGIONS + more], [[(256, 1), (REGIONS - 1, 7), (3, -300)]])
        yield Store(f"made {65535 + more} rows", 1, tents[:1], [[(0, n % 100)] for n in range(65535 + more)])
        shapes = [[(bit, 1) for bit in range(11) if n >> bit & 1] for n in range(1024 + more)]
        yield Store(f"made {1024 + more} shapes", 1, tents[:11], shapes)
    yield Store("made region twice", 1, tents[:1] * 2, [[(1, 5)], [(0, 0), (1, 5)]])


def every_store(paths):
    return [store for path in paths for store in stores(path)] + list(made())


def job(store):
    """The job's bytes, by the table of records in docs/RULES.md (J1)."""
    records = []
    for number, region in enumerate(store.regions):
        records += [pack(">BBBB3h2x", 1, number & 0xFF, axis, number >> 8, *tent) for axis, tent in enumerate(region)]
    for row in store.rows:
        records += [pack(">BBxBi4x", 2, region & 0xFF, region >> 8, value) for region, value in row]
        records.append(pack(">B11x", 3))
    return b"".join(records)


def refusal(store, mode):
    """The number and place that the rules give for a store past a limit, else (0, 0)."""
    at = store.axes * len(store.regions)
    if store.axes > 64:
        return 1, 0
    if at + sum(len(row) + 1 for row in store.rows) > 1048576:
        return 3, 0
    if len(store.regions) > REGIONS:
        return 32, REGIONS * store.axes
    for number, row in enumerate(store.rows):
        named = [store.regions[region] for region, _ in row]
        for place, region in enumerate(named):
            if region in named[:place]:
                return 7, at + place
        at += len(row) + 1
        if mode == 1 and number == 65535:
            return 9, at - 1
    shapes = {frozenset((region, width(value)) for region, value in store.by_coordinates(row).items()) for row in store.rows}
    return (10, 0) if mode == 0 and len(shapes) > 1024 else (0, 0)


def width(value):
    return 1 if -128 <= value <= 127 else 2 if -32768 <= value <= 32767 else 4


def jobs(folder, paths):
    listed = every_store(paths)
    for store in listed:
        (folder / f"{store.name}.job").write_bytes(job(store))
    (folder / "jobs").write_text("".join(f"{store.axes} {store.name}\n" for store in listed))


# What was built


class Built:
    """A built store: where the row of each set is."""

    def __init__(self, folder, store, mode):
        def numbers(kind):
            return [int(word) for word in (folder / f"{store.name}.{mode}.{kind}").read_text().split()]

        self.answer = tuple(numbers("answer"))
        if self.answer == (0, 0):
            self.data = (folder / f"{store.name}.{mode}.store").read_bytes()
            self.ids, self.map = numbers("ids"), numbers("map")
            self.places = [self.map[one] for one in self.ids]


def compare(store, built, mode):
    """Every row, read by fontTools, is the font's own; ids and map are as the mode says."""
    here = f"{store.name}, mode {mode}:"
    theirs = read_store(built.data)
    read = Store("", store.axes, regions_of(theirs), rows_of(theirs))
    wanted = [store.by_coordinates(row) for row in store.rows]
    columns = [data.VarRegionIndex for data in theirs.VarData if data]
    expect(all(len(set(some)) == len(some) for some in [read.regions, *columns]), here, "a region twice")
    expect({one for some in columns for one in some} == set(range(len(read.regions))), here, "a region that no subtable names")
    expect(len(built.ids) == len(wanted), here, len(built.ids), "ids of", len(wanted), "sets")
    first = {}
    for row in wanted:
        first.setdefault(frozenset(row.items()), len(first))
    ids = [first[frozenset(row.items())] for row in wanted] if mode == 0 else list(range(len(wanted)))
    expect(built.ids == ids, here, "the ids are others")
    expect(len(built.map) == len(set(built.map)) == len(set(ids)), here, "the map has no place of its own for each id")
    expect(len(built.map) == sum(map(len, read.rows)), here, "rows that no id has")
    expect(mode == 0 or built.map == ids, here, "the map is not in order of adding")
    for number, (row, place) in enumerate(zip(wanted, built.places)):
        got = read.by_coordinates(read.rows[place >> 16][place & 0xFFFF])
        expect(got == row, here, f"set {number}: fontTools reads {got}, the font has {row}")
    return len(theirs.VarData)


TABLE = "{:<34}{:>8}{:>8}{:>11}{:>8}{:>10}{:>8}{:>12}{:>12}"


def rows(folder, paths):
    print(TABLE.format("", "", "", "subtables", "", "", "bytes", "", "").rstrip())
    print(TABLE.format("font and table", "regions", "rows", *2 * ("font", "dedup", "implicit")))
    equal, refused = {"font": 0, "made": 0}, 0
    for store in every_store(paths):
        subtables, sizes = [store.own[0]], [store.own[1]]
        for mode in MODES:
            built = Built(folder, store, mode)
            expect(built.answer == refusal(store, mode), f"{store.name}, mode {mode}: answered", built.answer)
            if built.answer == (0, 0):
                subtables.append(compare(store, built, mode))
                sizes.append(len(built.data))
                equal["made" if store.name.startswith("made ") else "font"] += len(store.rows)
            else:
                subtables.append("-")
                sizes.append(f"refused {built.answer[0]}")
                refused += 1
        print(TABLE.format(store.name, len(store.regions), len(store.rows), *subtables, *sizes))
    print(f"equal: {equal['font']} rows of fonts, {equal['made']} made; refused by rule: {refused} builds")


# Advances


def with_every_glyph(path):
    """The font as it came, but that each glyph has a private character and no other."""
    font = TTFont(path)
    cmap = CmapSubtable.newSubtable(12)
    cmap.platformID, cmap.platEncID, cmap.language = 3, 10, 0
    cmap.cmap = {PRIVATE + number: glyph for number, glyph in enumerate(font.getGlyphOrder())}
    font["cmap"].tables = [cmap]
    return font


def our_hvar(font, built, mode):
    """HVAR with our very bytes; in mode 1 the glyph's number is the row's, so there is no map."""
    ending = b""
    if mode == 0:
        mapping = otTables.VarIdxMap()
        mapping.mapping = dict(zip(font.getGlyphOrder(), built.places))
        ending = bytes_of(mapping, font)
    hvar = DefaultTable("HVAR")
    hvar.data = pack(">2H4I", 1, 0, 20, ending and 20 + len(built.data) or 0, 0, 0) + built.data + ending
    return hvar


def places(font):
    """The default, both ends, and two places that are off the default on every axis."""
    axes = font["fvar"].axes
    spots = [[axis.defaultValue for axis in axes], [axis.minValue for axis in axes], [axis.maxValue for axis in axes]]
    for part in (0.3, 0.7):
        spots.append([axis.minValue + part * (axis.maxValue - axis.minValue) for axis in axes])
        expect(all(at != axis.defaultValue for at, axis in zip(spots[-1], axes)), "a place on the default")
    return [",".join(f"{axis.axisTag}={at:g}" for at, axis in zip(spot, axes)) for spot in spots]


def advances(file, glyphs, place):
    """Of every glyph by hb-shape. The shaper `fallback` leaves out all but characters, glyphs and advances."""
    text = "".join(chr(PRIVATE + number) for number in range(glyphs))
    command = [HB_SHAPE, "--shapers=fallback", "--output-format=json", "--no-glyph-names", f"--variations={place}", file]
    said = subprocess.run(command, input=text.encode(), stdout=subprocess.PIPE, check=True).stdout
    shaped = json.loads(said)
    expect([glyph["g"] for glyph in shaped] == list(range(glyphs)), file, "hb-shape leaves glyphs out")
    return [glyph["ax"] for glyph in shaped]


def shape(folder, paths):
    for path in paths:
        stem, font = Path(path).stem, with_every_glyph(path)
        store = {store.name: store for store in stores(path)}.get(f"{stem} {BY_GLYPH}")
        expect(store, stem, "has no HVAR")
        came, glyphs = folder / f"{stem}.came", len(store.rows)
        font.save(came)
        expect(TTFont(came).reader["HVAR"] == TTFont(path).reader["HVAR"], stem, "the copy has another HVAR")
        own = {place: advances(came, glyphs, place) for place in places(font)}
        expect(len({tuple(one) for one in own.values()}) == len(own), stem, "two places have the same advances")
        for mode in MODES:
            ours = folder / f"{stem}.{mode}.ours"
            font["HVAR"] = our_hvar(font, Built(folder, store, mode), mode)
            font.save(ours)
            for place, wanted in own.items():
                got = advances(ours, glyphs, place)
                other = [glyph for glyph in range(glyphs) if got[glyph] != wanted[glyph]]
                expect(not other, f"{stem}, mode {mode}, {place}: {len(other)} advances differ, first of glyph", other[:1])
            again = TTFont(ours)
            read = Store("", 0, regions_of(again["HVAR"].table.VarStore), [])
            got = [read.by_coordinates(row) for row in advance_rows(again)]
            wanted = [store.by_coordinates(row) for row in store.rows]
            expect(got == wanted, f"{stem}, mode {mode}: fontTools reads another HVAR")
        print(f"{stem}: the advances of {glyphs} glyphs are equal in both modes at", *own)


if __name__ == "__main__":
    {"jobs": jobs, "rows": rows, "shape": shape}[sys.argv[1]](Path(sys.argv[2]), sys.argv[3:])
