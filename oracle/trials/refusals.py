#!/usr/bin/env python3
"""Writes the inputs of crates/test_trials with refusal causes. Nothing is proved about this script.

  blocks   `draw_block` with every subset of its five causes
  frames   `draw_frame` with every subset of its five causes, with each single way to trigger one, and with each maximum that is
           still accepted
  texts    `draw_text`, likewise
  sets     `pages`, which takes the inputs of both, with every subset of its seven causes"""
import packed

# Kinds of calls.
BLOCK, FRAME, TEXT, PAGES = 0, 1, 3, 4

STYLE = 9313655135634718720  # a foreground and a background
HEAD = 2147483648  # of a text line
TITLE = 2415919104  # the head of a title, of position 2
GLYPH = 66689  # A of width 1, with the last of two styles
STYLE_NUMBER = 1  # the last of two styles
SYMBOL = 2097151  # the largest

# Accepted, on 4 × 3 cells.
ACCEPTED = dict(
    columns=4, rows=3, cells=12, styles=[STYLE, STYLE], titles=[TITLE, GLYPH], text=[HEAD, GLYPH], records=None,
    symbols=[SYMBOL] * 9, numbers=[STYLE_NUMBER] * 6,
)
# Common to all calls: four borders and a shadow with a symbol.
COMMON = dict(
    area=(0, 0, 4, 3), offsets=(1, 1), padding=(0, 0, 0, 0), borders=(1, 1, 1, 1), alignment=0, position=0, shadow=2, text_alignment=0, trim=True,
)


def call(which, name, answer, **other):
    """Returns an accepted call, changed by `other`."""
    given = {**ACCEPTED, **COMMON, **other}
    cells, records = given.pop("cells"), given.pop("records")
    if records is None:
        records = len(given["text"])
    given["text"] = given["text"][:records]
    return packed.call(which, answer, cells, records, name, packed.notice(**given))


def with_one(values, place, value):
    return values[:place] + [value] + values[place + 1 :]


def with_symbol(place):
    return with_one([SYMBOL] * 9, place, SYMBOL + 1)


def of_causes(which, causes, number):
    """Returns the call with the causes whose bits are set in `number`, each input just past its maximum. The style number is that of
    a title's glyph, or of the text's if the call takes no titles."""
    held = [cause for bit, cause in enumerate(causes) if number >> bit & 1]
    wrong = lambda cause: cause in held
    titled, worded = 5 in causes, 3 in causes
    return call(
        which,
        " ".join(str(cause) if wrong(cause) else "." for cause in causes),
        min(held, default=0),
        columns=5 if wrong(1) else 4,
        styles=[STYLE + wrong(2), 0] if which == BLOCK else [STYLE, STYLE + wrong(2)],
        text=[HEAD + wrong(4), GLYPH + (wrong(6) and not titled)],
        records=(16385 if wrong(3) else 16384) if worded else 2,
        titles=[2550136832 if wrong(5) else TITLE, GLYPH + (wrong(6) and titled)],
        symbols=with_symbol(3) if wrong(7) else [SYMBOL] * 9,
    )


def every_set(which, causes):
    return [of_causes(which, causes, number) for number in range(2 ** len(causes))]


# The ways are yielded with their names and expected numbers. Columns and rows come with matching cells, `cells` with 4 columns and 3
# rows; `head` is after the first line; style numbers and symbols are named by their index: the style numbers of border, block, titles,
# shadow, paragraph and text, of the text's glyphs and of the titles'.


def screen_ways():
    for n in (0, 513):
        yield f"columns {n}", 1, dict(columns=n, cells=n * 3)
    for n in (0, 257):
        yield f"rows {n}", 1, dict(rows=n, cells=n * 4)
    for n in (11, 13):
        yield f"cells {n}", 1, dict(cells=n)
    yield "styles 65", 2, dict(styles=[STYLE] * 65)
    for style in (1, 134217728):  # the lowest and the highest of the zeros
        yield f"last style {style}", 2, dict(styles=[STYLE, style])


def screen_maxima():
    yield "columns 512", 0, dict(columns=512, cells=1536)
    yield "rows 256", 0, dict(rows=256, cells=1024)
    yield "styles 64", 0, dict(styles=[STYLE] * 64)


def number_ways(places):
    for place in places:
        yield f"style number at place {place}", 6, dict(numbers=with_one([STYLE_NUMBER] * 6, place, 2))


def frame_ways():
    yield from screen_ways()
    yield "titles 17", 5, dict(titles=[TITLE] * 17)
    yield "title glyphs 257", 5, dict(titles=[TITLE] + [GLYPH] * 257)
    for first in (GLYPH, 2550136832, HEAD + 1):
        yield f"titles opening with {first}", 5, dict(titles=[first, GLYPH])
    for head in (2550136832, HEAD + 1, 2214592512):
        yield f"title head {head}", 5, dict(titles=[TITLE, GLYPH, head])
    yield from number_ways(range(5))
    yield "style number at place 7", 6, dict(titles=[TITLE, GLYPH + 1])
    for place in range(9):
        yield f"symbol at place {place}", 7, dict(symbols=with_symbol(place))
    yield from screen_maxima()
    for n in (16, 0):
        yield f"titles {n}", 0, dict(titles=[TITLE] * n)
    yield "title glyphs 256", 0, dict(titles=[TITLE] + [GLYPH] * 256)


def text_ways():
    yield from screen_ways()
    yield "text records 16385", 3, dict(records=16385)
    for first in (GLYPH, HEAD + 1, 2281701376):
        yield f"text opening with {first}", 4, dict(text=[first, GLYPH])
    for head in (HEAD + 1, 2214592512, 2281701376, 2415919104, 2550136832):  # the zeros, then each nonzero position
        yield f"text head {head}", 4, dict(text=[HEAD, GLYPH, head])
    yield from number_ways((4, 5))
    yield "style number at place 6", 6, dict(text=[HEAD, GLYPH + 1])
    yield from screen_maxima()
    for n in (16384, 0):
        yield f"text records {n}", 0, dict(records=n)


def with_ways(which, causes, ways):
    return every_set(which, causes) + [call(which, name, answer, **other) for name, answer, other in ways]


if __name__ == "__main__":
    packed.write("blocks", every_set(BLOCK, [1, 2, 5, 6, 7]))
    packed.write("frames", with_ways(FRAME, [1, 2, 5, 6, 7], frame_ways()))
    packed.write("texts", with_ways(TEXT, [1, 2, 3, 4, 6], text_ways()))
    packed.write("sets", every_set(PAGES, [1, 2, 3, 4, 5, 6, 7]))
