"""The packed form of a notice (defined in crates/preview_file), and the files of crates/test_trials/data: calls, each a header of
40 bytes and then a notice. The header's fields, with their sizes in bytes:

  kind 1 | expected number (0: it is accepted) 1 | cells to pass 2 | text records to pass 2 | bytes of the notice 2
  description, padded with blanks 32

Kinds: 0 `draw_block`, 1 `draw_frame`, 2 all pages of the notice, drawn and read back, 3 `draw_text`, 4 `pages`. Each call takes those
parts of the notice that it has inputs for; `draw_text` draws into the notice's area. Numbers are high byte first. The text passed
starts with the notice's records; all later ones are the glyph A of width 1. Nothing is proved about this script."""
import os
import struct
import sys

DATA = os.path.join(os.path.dirname(os.path.abspath(__file__)), "..", "..", "crates", "test_trials", "data")


def notice(columns, rows, area, symbols, offsets, padding, borders, numbers, alignment, position, shadow, text_alignment, trim, styles, titles, text):
    """Packs a notice. `symbols`: the eight border symbols, then the shadow's; `borders`: top, right, bottom, left; `numbers`: the
    style numbers of border, block, titles, shadow, notice and text."""
    border, block, titles_style, shadow_style, own, text_style = numbers
    return b"".join([
        b"NTC1", struct.pack(">6H", columns, rows, *area),
        struct.pack(">9I2i4H", *symbols, *offsets, *padding),
        bytes([*borders, border, block, titles_style, alignment, position, shadow, shadow_style]),
        struct.pack(">2H4B", 0, 0, own, text_style, text_alignment, 2 if trim else 1),
        struct.pack(">3H", len(styles), len(titles), len(text)),
        struct.pack(f">{len(styles)}Q", *styles), struct.pack(f">{len(titles)}I", *titles), struct.pack(f">{len(text)}I", *text),
    ])


def call(which, answer, cells, records, name, packed):
    return struct.pack(">2B3H32s", which, answer, cells, records, len(packed), name.ljust(32).encode()) + packed


def write(name, calls):
    """Writes a file of calls, into the folder given to the script, if any."""
    folder = sys.argv[1] if len(sys.argv) > 1 else DATA
    with open(os.path.join(folder, name), "wb") as file:
        file.write(b"".join(calls))
