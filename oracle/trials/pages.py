#!/usr/bin/env python3
"""Writes the 768 notices that crates/test_trials draws page by page and reads back: with every set of borders, with and without a
shadow and titles, trimmed and untrimmed, of each alignment, on 40 × 20 cells. Every text glyph is one cell wide: of width 1, or
ambiguous, which is read narrow. Whitespace glyphs have the blank symbol, and no other glyph has it. Nothing is proved about this
script."""
import struct

import packed

AMBIGUOUS = 7  # the width code


# Reproducible pseudo-random numbers modulo 2^32, the same as in crates/test_texts.
def seed(number):
    return (number * 2654435769 + 1) % 2**32


def on(x, times=1):
    """Returns the random number `times` after x."""
    for _ in range(times):
        x = (x * 1664525 + 1013904223) % 2**32
    return x


def below(x, end):
    return x // 65536 % end


def symbol(x):
    return x // 2048


def style_words(count, unit, x):
    for _ in range(count):
        halves = [on(x, k) // 65536 for k in range(4)]
        word = int.from_bytes(struct.pack(">4H", *halves), "big")
        yield word - word % unit
        x = on(x, 4)


def head(x, position=0):
    """Returns a head of random alignment."""
    return 2147483648 + below(x, 4) * 536870912 + position * 134217728


def text_of(length, heads, blanks, x):
    """Yields text records: one in `heads` is a head, one glyph in `blanks` is whitespace, and one in 5 is ambiguous."""
    for place in range(length):
        y, z = on(x), on(x, 2)
        width = AMBIGUOUS if below(z, 5) == 0 else 1
        if place == 0 or below(x, heads) == 0:
            yield head(y)
        elif below(y, blanks) == 0:
            yield 32 * 1024 + width * 128 + 64 + below(z, 4)
        else:
            yield (33 + z // 2048 % 2097119) * 1024 + width * 128 + below(on(z), 4)
        x = on(x, 3)


def title_head(x):
    return head(x, below(on(x), 3))


def title_length(x, most):
    kind = below(x, 8)
    return most if kind < 2 else 0 if kind == 2 else below(on(x), most + 1)


def title_glyph(x):
    y, z = on(x), on(x, 3)
    kind = below(y, 16)
    width = 0 if kind < 2 else 1 if kind < 8 else AMBIGUOUS if kind < 10 else 2 if kind < 13 else 3 if kind < 15 else below(on(y), 8)
    return symbol(x) * 1024 + width * 128 + below(z, 2) * 64 + below(z, 4)


def titles_of(count, most, x):
    """Returns titles of at most `most` glyphs. About half of them share a head."""
    common, y, records = title_head(x), on(x, 2), []
    for _ in range(count):
        z = on(y, 4)
        records.append(common if below(y, 2) == 0 else title_head(on(y)))
        records += [title_glyph(on(seed(y), 4 * k)) for k in range(title_length(z, most))]
        y = on(z, 2)
    return records


def offset(x, reach):
    """Returns a shadow's offset: at the ends of the 32-bit or 16-bit range, 0, or at most `reach` either way."""
    ends = [-(2**31), 2**31 - 1, -65535, 65535, 0]
    kind = below(x, 16)
    return ends[kind] if kind < 5 else below(on(x), 2 * reach + 1) - reach


def size(x, most):
    """Returns an inner size: often small, sometimes larger than the screen."""
    return 1 + below(on(x), 3 if below(x, 4) == 0 else most)


def notice_of(number):
    x = seed(number)
    y = on(x)
    text = list(text_of(1 + below(x, 400), 2 + below(y, 60), 1 + below(on(y), 9), on(y, 4)))
    z = seed(y)
    titles = titles_of(below(z, 4), 8, on(z))
    x = seed(z)
    y = on(x, 4)
    block = on(y, 4)
    a, b, c = on(block, 8), on(block, 12), on(block, 16)
    own = seed(x)
    borders = [number >> bit & 1 for bit in range(4)]
    padding = [below(on(b, k), 3) for k in range(4)]  # left, right, top, bottom
    places = [record >> 27 & 3 for record in titles if record >> 31]
    position = number % 2
    has_title = [place in places or (2 in places and position == place) for place in range(2)]
    across = borders[3] + borders[1] + padding[0] + padding[1]
    down = max(borders[0], has_title[0]) + max(borders[2], has_title[1]) + padding[2] + padding[3]
    shadow = number // 16 % 4
    return text, packed.notice(
        columns=40, rows=20,
        area=(below(on(y), 4), below(on(y, 2), 4), size(x, 44) + across, size(y, 22) + down),
        symbols=[symbol(on(block, k)) for k in range(8)] + [symbol(on(c))],
        offsets=(offset(on(c, 2), 3), offset(on(c, 4), 3)),
        padding=padding, borders=borders,
        numbers=[below(a, 4), below(on(a), 4), below(on(a, 2), 4), below(c, 4), below(own, 4), below(on(own), 4)],
        alignment=number % 3, position=position, shadow=min(shadow, 2), text_alignment=number // 128 % 3, trim=number // 64 % 2 == 0,
        styles=list(style_words(4, 2**28, 1)), titles=titles, text=text,
    )


def call_of(number):
    text, notice = notice_of(number)
    return packed.call(2, 0, 800, len(text), f"notice {number}", notice)


if __name__ == "__main__":
    packed.write("pages", map(call_of, range(768)))
