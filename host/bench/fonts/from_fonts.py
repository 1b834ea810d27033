#!/usr/bin/python3
"""Writes the jobs in this folder: the numbers of two fonts' item variation stores.

Needs Debian's python3-fonttools, fonts-karla and pango1.0-tests (bookworm). Run it in
this folder. Only the stores' numbers are taken, nothing of outlines or names.
"""

from fontTools.ttLib import TTFont

KARLA = "/usr/share/fonts/truetype/karla-variable/"
CANTARELL = "/usr/libexec/installed-tests/pango/fonts/"

# Name of the job, file of the font, its package, table.
JOBS = [
    ("karla-hvar", KARLA + "Karla[wght].ttf", "fonts-karla", "HVAR"),
    ("karla-gdef", KARLA + "Karla[wght].ttf", "fonts-karla", "GDEF"),
    ("karla-italic-hvar", KARLA + "Karla-Italic[wght].ttf", "fonts-karla", "HVAR"),
    ("karla-italic-gdef", KARLA + "Karla-Italic[wght].ttf", "fonts-karla", "GDEF"),
    ("cantarell-hvar", CANTARELL + "Cantarell-VF.otf", "pango1.0-tests", "HVAR"),
    ("cantarell-gdef", CANTARELL + "Cantarell-VF.otf", "pango1.0-tests", "GDEF"),
    ("cantarell-mvar", CANTARELL + "Cantarell-VF.otf", "pango1.0-tests", "MVAR"),
]


def number(coordinate):
    """The shortest decimal of a coordinate."""
    return f"{coordinate:.5f}".rstrip("0").rstrip(".")


def row(store, outer, inner):
    """A row as the values of a set; zeros are left out."""
    data = store.VarData[outer]
    values = zip(data.VarRegionIndex, data.Item[inner])
    return [(region, value) for region, value in values if value != 0]


def sets(font, table, store):
    """HVAR: a set for each glyph, as a compiler of fonts adds them, so that sets come
    again; else each row of the store once."""
    if table == "HVAR":
        widths = font["HVAR"].table.AdvWidthMap
        for at, glyph in enumerate(font.getGlyphOrder()):
            index = widths.mapping[glyph] if widths else at
            yield row(store, index >> 16, index & 0xFFFF)
        return
    for outer, data in enumerate(store.VarData):
        for inner in range(data.ItemCount):
            yield row(store, outer, inner)


def write(name, path, package, table):
    font = TTFont(path)
    store = font[table].table.VarStore
    regions = store.VarRegionList
    what = "a set for each glyph" if table == "HVAR" else "a set for each row"
    with open(name + ".job.txt", "w", encoding="ascii") as out:
        file = path.rsplit("/", 1)[1]
        print(f"# {table} of {file} (Debian's {package}, SIL Open Font License 1.1): {what}; written by from_fonts.py", file=out)
        print("axes", regions.RegionAxisCount, file=out)
        for at, region in enumerate(regions.Region):
            numbers = [
                number(coordinate)
                for axis in region.VarRegionAxis
                for coordinate in (axis.StartCoord, axis.PeakCoord, axis.EndCoord)
            ]
            print(f"region r{at}", *numbers, file=out)
        for values in sets(font, table, store):
            print("set", *(f"r{region}={value}" for region, value in values), file=out)


for job in JOBS:
    write(*job)
