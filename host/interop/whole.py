#!/usr/bin/python3
"""Whole stores of real fonts beside `fenikezo recover`, `judge` and `keep`: the side of fontTools and HarfBuzz.

  whole.py stores FOLDER FONT..   each store of the fonts as it stands there, NAME.store, with its rows in order, NAME.rows; and the same rows in a
                                  store that fontTools has optimised, NAME.opt.store and NAME.opt.rows; the names, a line each, into `stores`
  whole.py rows FOLDER NAME..     each row of NAME.store, by coordinates, is the row of NAME.built that NAME.words names
  whole.py cut FOLDER FONT..      the fonts cut to the first half of their glyphs by fontTools and by HarfBuzz; for ours the rows of those glyphs, NAME.used
  whole.py shape FOLDER FONT..    with NAME.kept and NAME.places in the font each glyph that is left has the advance that it had, as with the other
                                  two; a line of sizes for each font
"""
import sys

sys.dont_write_bytecode = True
import json
import subprocess
from pathlib import Path
from struct import pack, unpack_from

from fontTools.ttLib import TTFont
from fontTools.ttLib.tables import otTables
from fontTools.ttLib.tables.DefaultTable import DefaultTable
from fontTools.varLib import varStore  # which gives stores their `optimize`

from interop import HB_SHAPE, NO_ROW, PRIVATE, Store, bytes_of, expect, places, read_store, regions_of, rows_of, stores_of, with_every_glyph

# Where the offset of the store stands in a table, and its form.
OFFSETS = {"HVAR": (4, ">I"), "VVAR": (4, ">I"), "MVAR": (10, ">H"), "GDEF": (14, ">I")}


def own_bytes(font, tag, store):
    """The store as it stands in the font, up to the table's end; where it stands elsewhere as fontTools writes it."""
    if tag not in OFFSETS:
        return bytes_of(store, font)
    at, form = OFFSETS[tag]
    data = font.reader[tag]
    return data[unpack_from(form, data, at)[0] :]


def words_of(store):
    """The word of each row, in order."""
    return [outer << 16 | inner for outer, data in enumerate(rows_of(store)) for inner in range(len(data))]


def lines(words):
    return "".join(f"{word}\n" for word in words)


def numbers(file):
    return [int(word) for word in file.read_text().split()]


def stores(folder, paths):
    names = []
    for path in paths:
        font = TTFont(path)
        for tag, store in stores_of(font):
            name = f"{Path(path).stem}-{tag}".replace(" ", "")
            words = words_of(store)
            (folder / f"{name}.store").write_bytes(own_bytes(font, tag, store))
            (folder / f"{name}.rows").write_text(lines(words))
            anew = store.optimize(use_NO_VARIATION_INDEX=False) if words else {}
            (folder / f"{name}.opt.store").write_bytes(bytes_of(store, font))
            (folder / f"{name}.opt.rows").write_text(lines(anew[word] for word in words))
            names.append(name)
    (folder / "stores").write_text(lines(names))


def by_coordinates(data):
    """The regions and the rows of a store's bytes."""
    store = read_store(data)
    read = Store("", 0, regions_of(store), rows_of(store))
    return lambda word: read.by_coordinates(read.rows[word >> 16][word & 0xFFFF])


def rows(folder, names):
    count = 0
    for name in names:
        old = by_coordinates((folder / f"{name}.store").read_bytes())
        new = by_coordinates((folder / f"{name}.built").read_bytes())
        before, after = numbers(folder / f"{name}.rows"), numbers(folder / f"{name}.words")
        expect(len(before) == len(after), name, "has other rows")
        for one, other in zip(before, after):
            expect(old(one) == new(other), f"{name}: row {one}: fontTools reads {new(other)}, the font has {old(one)}")
        count += len(before)
    print(f"equal: {count} rows of {len(names)} stores")


# A font cut to half its glyphs


def base(folder, path):
    """The font with a character for every glyph and no layout, so that both cut it alike."""
    font = with_every_glyph(path)
    for tag in ("GSUB", "GPOS", "GDEF", "STAT", "DSIG"):
        if tag in font:
            del font[tag]
    file = folder / f"{Path(path).stem}.base"
    font.save(file)
    return file


def cut(folder, paths):
    for path in paths:
        file, stem = base(folder, path), Path(path).stem
        glyphs = len(TTFont(file).getGlyphOrder())
        kept = ",".join(f"U+{PRIVATE + number:X}" for number in range(glyphs // 2))
        listed = folder / f"{stem}.unicodes"
        listed.write_text(kept)
        python = [sys.executable, "-m", "fontTools.subset", file, f"--unicodes-file={listed}"]
        python += ["--notdef-outline", "--glyph-names", f"--output-file={folder / stem}.pyftsubset"]
        harfbuzz = ["hb-subset", file, f"--unicodes-file={listed}", "--notdef-outline", f"--output-file={folder / stem}.hb-subset"]
        for command in (python, harfbuzz):
            subprocess.run(command, check=True)
        # The glyphs that are left, by their numbers in the whole font, and their rows.
        left, order = TTFont(f"{folder / stem}.pyftsubset"), TTFont(file)
        table, number = order["HVAR"].table, order.getReverseGlyphMap()
        mapping = table.AdvWidthMap and table.AdvWidthMap.mapping
        words = [mapping[glyph] if mapping else number[glyph] for glyph in left.getGlyphOrder()]
        (folder / f"{stem}.used").write_text(lines(word for word in words if word != NO_ROW))
        (folder / f"{stem}.all").write_text(lines(words))
        (folder / f"{stem}.store").write_bytes(own_bytes(order, "HVAR", table.VarStore))


def advances(file, characters, place):
    text = "".join(map(chr, characters))
    command = [HB_SHAPE, "--shapers=fallback", "--output-format=json", "--no-glyph-names", f"--variations={place}", file]
    said = subprocess.run(command, input=text.encode(), stdout=subprocess.PIPE, check=True).stdout
    shaped = json.loads(said)
    expect(len(shaped) == len(characters) and all(glyph["g"] for glyph in shaped), file, "hb-shape leaves glyphs out")
    return [glyph["ax"] for glyph in shaped]


def ours(folder, stem):
    """What fontTools left of the font, with our store and places in HVAR."""
    font = TTFont(f"{folder / stem}.pyftsubset")
    data, rest = (folder / f"{stem}.kept").read_bytes(), iter(numbers(folder / f"{stem}.places"))
    mapping = otTables.VarIdxMap()
    words = [word if word == NO_ROW else next(rest) for word in numbers(folder / f"{stem}.all")]
    mapping.mapping = dict(zip(font.getGlyphOrder(), words))
    hvar = DefaultTable("HVAR")
    hvar.data = pack(">2H4I", 1, 0, 20, 20 + len(data), 0, 0) + data + bytes_of(mapping, font)
    font["HVAR"] = hvar
    font.save(f"{folder / stem}.ours")


def size(file):
    font = TTFont(file)
    table = font["HVAR"].table
    return len(bytes_of(table.VarStore, font)), len(words_of(table.VarStore))


def shape(folder, paths):
    for path in paths:
        stem, file = Path(path).stem, folder / f"{Path(path).stem}.base"
        ours(folder, stem)
        font = TTFont(file)
        number = font.getReverseGlyphMap()
        left = [glyph for glyph in TTFont(f"{folder / stem}.pyftsubset").getBestCmap()]
        expect(len(left) >= len(number) // 2 - 1, stem, "too few glyphs are left")
        for place in places(font):
            wanted = advances(file, left, place)
            for kind in ("pyftsubset", "hb-subset", "ours"):
                got = advances(f"{folder / stem}.{kind}", left, place)
                other = [one for one, two, three in zip(left, got, wanted) if two != three]
                expect(not other, f"{stem}, {kind}, {place}: {len(other)} advances differ, first of U+{other[0]:X}" if other else "")
        sizes = [size(file)] + [size(f"{folder / stem}.{kind}") for kind in ("pyftsubset", "hb-subset", "ours")]
        expect(sizes[3][0] == len((folder / f"{stem}.kept").read_bytes()), stem, "fontTools writes our store otherwise")
        print(f"| {stem} | {len(left)} of {len(number)} |", " | ".join(f"{long} ({rows})" for long, rows in sizes), "|")


if __name__ == "__main__":
    {"stores": stores, "rows": rows, "cut": cut, "shape": shape}[sys.argv[1]](Path(sys.argv[2]), sys.argv[3:])
