#!/usr/bin/env python3
"""Makes the inputs of crates/test_trials/data/preview again. Outside the proved part, as pack.py is."""
import argparse
import os
import struct
import sys

import pack

HERE = os.path.dirname(os.path.abspath(__file__))
DATA = os.path.join(HERE, "..", "..", "crates", "test_trials", "data", "preview")

# Byte offsets of fields.
COLUMNS, BLOCK_STYLE, SHADOW, WRAP, STYLES, TITLES, TEXT, RECORDS = 4, 73, 77, 86, 87, 89, 91, 93


def notice(text, *words):
    sys.argv = ["pack.py", *words]
    return bytearray(pack.packed(pack.arguments(), text))


def with_bytes(packed, at, changed):
    packed = bytearray(packed)
    packed[at : at + len(changed)] = changed
    return packed


def opening(packed, styles, titles, text):
    """Returns the notice with other styles, title records and text records, and their counts."""
    counts = struct.pack(">3H", len(styles), len(titles), len(text))
    return (
        bytes(packed[:STYLES])
        + counts
        + struct.pack(f">{len(styles)}Q", *styles)
        + struct.pack(f">{len(titles)}I", *titles)
        + struct.pack(f">{len(text)}I", *text)
    )


def small(*words):
    return notice("Door 3 is shut.", "--size", "12", "5", *words)


def shown(evening):
    head = pack.head(3, 0)
    symbols = [7, 27, 31, 32, 126, 127, 155, 159, 160, 0x7FF, 0x800, 0xD7FF, 0xD800, 0xDFFF, 0xE000, 0xFFFD, 0x10000, 0x10FFFF, 0x110000, 0x1FFFFF]
    glyphs = [symbol << 10 | 1 << 7 for symbol in symbols]
    every = pack.style("200 on 17 " + " ".join(pack.MODIFIERS))
    styles = [0, pack.style("1"), every, pack.style("on 4 bold"), 0]
    styled = [ord(letter) << 10 | 1 << 7 | number for number, letter in enumerate("abcde")]
    return {
        "01_evening": evening,
        "02_wide": notice("日本 a 語b", "--size", "12", "4", "--wide", "日本語", "--top", "語x", "--shadow", "symbol", "--area", "0", "0", "10", "3"),
        "03_symbols": opening(notice("", "--size", "20", "1", "--border", "none", "--padding", "0", "0", "0", "0"), [0] * 5, [], [head] + glyphs),
        "04_styles": opening(notice("", "--size", "6", "3", "--border", "ascii", "--padding", "0", "0", "0", "0"), styles, [], [head] + styled),
        "05_unwrapped": notice("abcdefgh\nijklmnop", "--size", "8", "4", "--wrap", "off", "--column", "3"),
        "06_empty_inner": notice("abc", "--size", "6", "3", "--area", "1", "1", "2", "1"),
        "07_no_text": opening(small("--top", "T"), [0] * 5, [], []),
        "08_off_the_screen": notice("abc", "--size", "6", "3", "--area", "9", "9", "5", "5"),
        "09_scrolled": notice("a\nb\nc\nd\ne", "--size", "6", "4", "--scroll", "2"),
        "10_scrolled_past": notice("a\nb", "--size", "6", "4", "--scroll", "65535"),
        "11_shadow_before": notice("abc", "--size", "9", "5", "--area", "3", "2", "6", "3", "--shadow", "symbol", "--shadow-offset", "-2", "-1"),
        "12_widest": notice("w" * 600, "--size", "512", "2", "--border", "none", "--padding", "0", "0", "0", "0"),
        "13_ambiguous": notice("7→3 ±1 ok", "--size", "10", "5", "--ambiguous", "--top", "→", "--top", "b"),
        "14_half_glyph": notice("ab日 c", "--size", "6", "5", "--padding", "0", "0", "0", "0", "--area", "0", "0", "5", "4", "--wide", "日", "--shadow", "symbol"),
    }


def bad(evening):
    return {
        "20_no_bytes": b"",
        "21_three_bytes": b"NTC",
        "22_other_mark": with_bytes(evening, 3, b"2"),
        "23_opening_cut": evening[:92],
        "24_records_cut": evening[:-1],
        "25_one_byte_after": evening + b"\0",
        "26_styles_257": with_bytes(evening, STYLES, struct.pack(">H", 257)),
        "27_titles_8193": with_bytes(evening, TITLES, struct.pack(">H", 8193)),
        "28_text_24577": with_bytes(evening, TEXT, struct.pack(">H", 24577)),
        "29_bytes_131073": evening + bytes(131073 - len(evening)),
    }


def refused(evening):
    head = pack.head(3, 0)
    glyph = pack.glyph("a", 0, 1)
    plain = small()
    five = [0] * 5
    return {
        "30_columns_0": with_bytes(evening, COLUMNS, b"\0\0"),
        "31_columns_513": with_bytes(evening, COLUMNS, struct.pack(">H", 513)),
        "32_styles_65": opening(plain, [0] * 65, [], [head, glyph]),
        "33_text_16385": opening(plain, five, [], [head] + [glyph] * 16384),
        "34_glyph_first": opening(plain, five, [], [glyph]),
        "35_titles_17": opening(plain, five, [pack.head(3, 0)] * 17, [head, glyph]),
        "36_style_5": with_bytes(evening, BLOCK_STYLE, b"\5"),
        "37_symbol": with_bytes(evening, 16, struct.pack(">I", 2097152)),
        "38_shadow_3": with_bytes(evening, SHADOW, b"\3"),
        "39_wrap_3": with_bytes(evening, WRAP, b"\3"),
    }


def main():
    argparse.ArgumentParser(description=__doc__).parse_args()
    with open(os.path.join(HERE, "evening.notice"), "rb") as file:
        evening = bytearray(file.read())
    os.makedirs(DATA, exist_ok=True)
    for name, packed in {**shown(evening), **bad(evening), **refused(evening)}.items():
        with open(os.path.join(DATA, name), "wb") as file:
            file.write(packed)


if __name__ == "__main__":
    main()
