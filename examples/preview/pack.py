#!/usr/bin/env python3
"""Makes the packed form of a notice, which `preview` reads, from plain text.

Outside the proved part: nothing proves this script. It is for trying things out, and what it gets wrong `preview` refuses or
shows. Each character becomes one glyph of one cell (`--wide` names characters of two; with `--ambiguous` those that Unicode
calls ambiguous get that width code), a space a whitespace glyph; a line of the text becomes a line of the notice."""
import argparse
import struct
import sys
import unicodedata

EPILOGUE = """Outside the proved part: nothing proves this script. crates/preview_file says the packed form."""

# Border symbols: top left, top right, bottom left, bottom right, left, right, top, bottom.
BORDERS = {
    "none": None,
    "plain": "┌┐└┘││──",
    "rounded": "╭╮╰╯││──",
    "double": "╔╗╚╝║║══",
    "thick": "┏┓┗┛┃┃━━",
    "ascii": "++++||--",
}
ALIGNMENTS = {"left": 0, "centre": 1, "right": 2, "own": 3}
WRAPS = {"off": 0, "on": 1, "trim": 2}
SHADOWS = {"none": 0, "overlay": 1, "symbol": 2}
MODIFIERS = ["bold", "dim", "italic", "underlined", "slow-blink", "rapid-blink", "reversed", "hidden", "crossed-out"]

# Width code of a glyph that is read as one cell or as two.
AMBIGUOUS = 7

# Style numbers: indices into the style table.
PLAIN, FRAME, TITLE, SHADE, DIGIT = range(5)


def style(words):
    """Packs a style from words: a foreground 1 to 255, `on` and a background, names of modifiers."""
    packed, background = 0, False
    for word in words.split():
        if word == "on":
            background = True
        elif word in MODIFIERS:
            packed |= 1 << MODIFIERS.index(word) << 37
        elif background:
            packed |= 1 << 54 | int(word) << 46
        else:
            packed |= 1 << 63 | int(word) << 55
    return packed


def head(alignment, position):
    return 1 << 31 | alignment << 29 | position << 27


def glyph(character, number, width):
    return ord(character) << 10 | width << 7 | (character == " ") << 6 | number


def width_of(character, options):
    """Returns the width code: cells, or ambiguous."""
    if character in options.wide:
        return 2
    if options.ambiguous and unicodedata.east_asian_width(character) == "A":
        return AMBIGUOUS
    return 1


def text_records(text, options):
    records = []
    for line in text.split("\n"):
        records.append(head(ALIGNMENTS["own"], 0))
        for character in line:
            number = DIGIT if options.digits and character.isdigit() else PLAIN
            records.append(glyph(character, number, width_of(character, options)))
    return records


def title_records(titles, position, options):
    records = []
    for title in titles:
        records.append(head(ALIGNMENTS[options.title_alignment], position))
        records += [glyph(character, TITLE, width_of(character, options)) for character in title]
    return records


def block_bytes(options):
    symbols = BORDERS[options.border]
    stands = symbols is not None
    numbers = [ord(symbol) for symbol in symbols] if stands else [0] * 8
    return (
        struct.pack(">8I", *numbers)
        + struct.pack(">Iii", ord(options.shadow_symbol), *options.shadow_offset)
        + struct.pack(">4H", *options.padding)
        + bytes([stands] * 4)
        + bytes([FRAME, PLAIN, FRAME, ALIGNMENTS["left"], 0, SHADOWS[options.shadow], SHADE])
    )


def packed(options, text):
    columns, rows = options.size
    area = options.area or [0, 0, columns, rows]
    styles = [0, style(options.frame_style), style(options.title_style), style(options.shadow_style), style(options.digit_style)]
    titles = title_records(options.top, 0, options) + title_records(options.bottom, 1, options)
    records = text_records(text, options)
    return (
        b"NTC1"
        + struct.pack(">2H", columns, rows)
        + struct.pack(">4H", *area)
        + block_bytes(options)
        + struct.pack(">2H", options.scroll, options.column)
        + bytes([PLAIN, PLAIN, ALIGNMENTS[options.alignment], WRAPS[options.wrap]])
        + struct.pack(">3H", len(styles), len(titles), len(records))
        + struct.pack(f">{len(styles)}Q", *styles)
        + struct.pack(f">{len(titles)}I", *titles)
        + struct.pack(f">{len(records)}I", *records)
    )


def arguments():
    parser = argparse.ArgumentParser(description=__doc__, epilog=EPILOGUE, formatter_class=argparse.RawDescriptionHelpFormatter)
    parser.add_argument("text", nargs="?", default="-", help="a file of plain text; standard input if none")
    parser.add_argument("-o", "--output", default="-", help="where the packed form goes; standard output if none")
    parser.add_argument("--size", nargs=2, type=int, default=[40, 12], metavar=("COLUMNS", "ROWS"), help="the screen (40 12)")
    parser.add_argument("--area", nargs=4, type=int, metavar=("X", "Y", "WIDTH", "HEIGHT"), help="where the notice stands (all)")
    parser.add_argument("--top", action="append", default=[], metavar="TITLE", help="a title at the top; may be repeated")
    parser.add_argument("--bottom", action="append", default=[], metavar="TITLE", help="a title at the bottom")
    parser.add_argument("--title-alignment", choices=ALIGNMENTS, default="own")
    parser.add_argument("--alignment", choices=["left", "centre", "right"], default="left")
    parser.add_argument("--wrap", choices=WRAPS, default="trim", help="off, on, or on and trimmed (trim)")
    parser.add_argument("--border", choices=BORDERS, default="plain")
    parser.add_argument("--padding", nargs=4, type=int, default=[1, 1, 0, 0], metavar=("LEFT", "RIGHT", "TOP", "BOTTOM"))
    parser.add_argument("--shadow", choices=SHADOWS, default="none")
    parser.add_argument("--shadow-symbol", default="▒")
    parser.add_argument("--shadow-offset", nargs=2, type=int, default=[1, 1], metavar=("X", "Y"))
    parser.add_argument("--scroll", type=int, default=0, help="the first line shown")
    parser.add_argument("--column", type=int, default=0, help="with --wrap off: how far lines are scrolled to the right")
    parser.add_argument("--wide", default="", metavar="CHARACTERS", help="characters of two cells")
    parser.add_argument("--ambiguous", action="store_true", help="characters of East Asian Width A (UAX 11) are ambiguous: `preview` reads them as one cell, `preview wide` as two")
    parser.add_argument("--digits", action="store_true", help="digits have a style of their own")
    parser.add_argument("--frame-style", default="4", metavar="WORDS", help="as `4`, `7 on 1 bold` (4)")
    parser.add_argument("--title-style", default="3 bold", metavar="WORDS")
    parser.add_argument("--shadow-style", default="8", metavar="WORDS")
    parser.add_argument("--digit-style", default="1 bold", metavar="WORDS")
    return parser.parse_args()


def main():
    options = arguments()
    if options.text == "-":
        text = sys.stdin.read()
    else:
        with open(options.text, encoding="utf-8") as file:
            text = file.read()
    made = packed(options, text.removesuffix("\n"))
    if options.output == "-":
        sys.stdout.buffer.write(made)
    else:
        with open(options.output, "wb") as file:
            file.write(made)


if __name__ == "__main__":
    main()
