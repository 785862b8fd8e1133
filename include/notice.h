/* C and C++ interface of the framed notice on x86-64: the functions exported by the archive that
   `rt lib` in crates/notice_c builds (crates/notice_c/out/libnotice_c.a). The functions are proved
   (crates/notice_c); this header, its inline functions included, is written by hand. Link with
   `cc program.c libnotice_c.a`; no other library is needed.

   A screen is columns x rows cells, row by row from the top. A text, and a block's titles, are arrays of
   records: each line or title starts with a head, followed by its glyphs. The calls that draw borrow a
   style table; everything styled refers to an entry of it by number, from 0.

   Packed fields, most significant bit first, with their sizes in bits. Functions below pack glyphs,
   heads and styles, and read cells and composed lines.

     glyph, 32 bits          0 | symbol 21 | width 3 | whitespace 1 | style 6
     head, 32 bits           1 | alignment 2 | position 2 | zeros 27
     style, 64 bits          foreground given 1 | foreground 8 | background given 1 | background 8 |
                             add 9 | remove 9 | zeros 28
     cell, 64 bits           symbol 21 | foreground 8 | background 8 | modifiers 9 | never touched 18
     composed line, 64 bits  first 15 | end 15 | width 16 | alignment 2 | mark 1 | zeros 15

   - Glyph: a symbol is any number below 2,097,152, read as a code point; 32 is the blank symbol. Width is
     in columns, 0 to 6; 7 is ambiguous (Unicode UAX 11): each call that reads widths takes a
     notice_ambiguous, by which it is read as 1 or 2. Drawing writes the symbol to the first cell and leaves
     the symbols of the others that the glyph covers; those of a text's glyph are all in its area, as far as that is
     on the screen. A glyph of the text that starts there and would run past the right edge is clipped: its first
     cell gets the blank symbol, in the text's and the glyph's styles, and no other cell changes. One that starts
     at the edge or past it is clipped too, and changes no cell. Glyphs of width 0 aren't drawn. Lines break at
     glyphs with whitespace 1, whatever their symbols.
   - Head: alignment is a notice_alignment, where 3 is the default alignment in a text, and "none given" in
     a title. Position is 0 in a text, and a notice_position in a title.
   - Style: sets the given colours, then sets the modifiers to add, then clears those to remove. Colours and
     modifiers are only stored: what they mean is up to whoever shows the cells.
   - Cell: a blank cell has symbol 32 and zeros.
   - Composed line: first and end are record numbers of the text, counted from 0 with heads included; end
     is one past the last. Both are 0 if the line has no glyph. Its glyphs are those from first to end
     that are read as no wider than the limit; their width can exceed the limit, and those that run past it are
     clipped. Alignment is a notice_alignment other than default.

   A notice is drawn by two calls: first notice_draw_frame, which draws its frame and returns the inner area, then
   notice_draw_text, which lays its text into that area. Give both the same cells, style table, `style` and
   `ambiguous`. Look at the frame's number before the text's: a refused frame returns an area of four zeros, and a
   text that is laid into an area without a cell draws nothing, though it isn't refused for that. A frame drawn
   after its text gives the text's cells its styles again.

   To redraw a word, call notice_draw_text with the word's own area: it changes no cell outside it, and takes time
   for the word and the style table alone, whatever the screen and the frame. Cells without a glyph keep their
   symbols, so a shorter word needs blanks up to the length of the one before; and cells keep the colours and
   modifiers that no style gives or removes.

   Pages: notice_pages returns the number of lines n, the number of pages that they take, and the inner
   area as drawn, h rows high, which is the one that notice_draw_frame returns. Page p, from 0, is drawn by
   notice_draw_frame, then notice_draw_text into that area, with scroll p x h, which is below 16,384, each page on
   blank cells. If that area has a cell and the text is wrapped, notice_tally at its width, with trim and
   ambiguous as the notice has them, returns the same n, and the pages are n / h, rounded up. The pages show all
   lines, but not always all glyphs. If none may be lost, check the tally at that width: every glyph that isn't
   dropped whitespace is shown if clipped, zero_width and over_wide are 0. Of an unwrapped text the pages show
   only what fits the width. No page and a text that isn't empty: nothing can be shown, since the inner area has
   no cell.

   Every call terminates, whatever numbers it is given. A call that can't be carried out is refused: its
   answer has 255 if that applies, else the lowest notice_refusal that does, of those listed for the call,
   and zeros in its other fields. A refused call, 255 included, leaves all cells and the list unchanged.

   The caller must ensure only this: each pointer points to as many elements as the length after it says,
   with C's alignment; and cells and list, which are written, overlap nothing that the call reads. A null
   pointer with length 0 is fine. The calls keep nothing afterwards, allocate nothing and have no state:
   calls on different cells and lists may run at the same time.

   Stack use is bounded, as no function calls itself. In the archive that rattle-kit-13f builds
   notice_draw_frame takes the most, at most 1,248 bytes whatever it is given. Arguments and answer are in
   the caller's frame besides, under 200 bytes. This is read from the machine code, not proved:
   `tools/stack` prints the bytes of each call of any archive. */
#ifndef NOTICE_H
#define NOTICE_H

#include <stddef.h>
#include <stdint.h>

/* Raised when programs written for an earlier version of this header have to be changed. In version 2 one call,
   notice_draw_notice, drew a whole notice: a program for it makes two, notice_draw_frame and notice_draw_text, as
   said above. Together they draw what it drew, and at least one of them is refused where it was. But where it was
   refused for the text alone (3, 4, 6) and left all cells, the frame is drawn now; notice_pages, asked first, is
   refused with the number that it had. In version 1 no call took a notice_ambiguous, and width code 7 was seven
   columns. A program for version 1 passes one to notice_list_lines, notice_tally, notice_draw_block,
   notice_draw_frame and notice_line_width, sets the field of notice_text,
   which was 8 bytes long and is 10 (0 in it is answered with 255), and is compiled again: the functions' names
   are the same, so an old object would link and pass the wrong arguments. The first archives of version 2 placed
   and drew a wide glyph of the text that starts before the right edge, or the limit, even if it runs past: counts
   and cells of such texts differ from theirs, and no program has to be changed. Entries of early archives have 0 in
   the place of the mark; the readers of an entry are otherwise the same. */
#define NOTICE_API_VERSION 3

#ifdef __cplusplus
extern "C" {
#endif

/* Why a call is refused. */
enum notice_refusal {
    NOTICE_ACCEPTED = 0,
    /* Columns not 1 to 512, rows not 1 to 256, or cells not columns x rows. */
    NOTICE_REFUSED_SCREEN = 1,
    /* Over 64 styles, or a style's zeros not 0. */
    NOTICE_REFUSED_STYLES = 2,
    /* A text over 16,384 records. */
    NOTICE_REFUSED_TEXT_LENGTH = 3,
    /* A non-empty text that doesn't start with a head, or that has a head whose zeros or position aren't
       0. */
    NOTICE_REFUSED_TEXT_HEADS = 4,
    /* Titles: over 16, over 256 glyphs in one, non-empty records that don't start with a head, a head with
       position 3 or with zeros that aren't 0. */
    NOTICE_REFUSED_TITLES = 5,
    /* A style number, including those of glyphs, that isn't below the count of styles; so with no styles
       every drawing is refused. */
    NOTICE_REFUSED_STYLE_NUMBER = 6,
    /* A border or shadow symbol of 2,097,152 or more, even for a border that isn't drawn. */
    NOTICE_REFUSED_SYMBOL = 7,
    /* A limit, or the width given to notice_line_count, over 4,096. */
    NOTICE_REFUSED_LIMIT = 8,
    /* A list shorter than the lines to write. */
    NOTICE_REFUSED_LIST_LENGTH = 9,
    /* A setting whose number is none of its cases; this is checked before all others. */
    NOTICE_UNKNOWN_SETTING = 255
};

/* Ceilings: the largest sizes that are accepted. */
enum notice_ceiling {
    NOTICE_MAX_COLUMNS = 512,
    NOTICE_MAX_ROWS = 256,
    NOTICE_MAX_STYLES = 64,
    /* Of a text, heads included. */
    NOTICE_MAX_RECORDS = 16384,
    NOTICE_MAX_TITLES = 16,
    /* Of one title. */
    NOTICE_MAX_TITLE_GLYPHS = 256,
    NOTICE_MAX_LIMIT = 4096
};

enum notice_alignment {
    NOTICE_ALIGN_LEFT = 0,
    NOTICE_ALIGN_CENTRE = 1,
    NOTICE_ALIGN_RIGHT = 2,
    /* Only in heads. */
    NOTICE_ALIGN_DEFAULT = 3
};

/* Position of a title. */
enum notice_position {
    NOTICE_POSITION_TOP = 0,
    NOTICE_POSITION_BOTTOM = 1,
    /* Only in heads: the block's. */
    NOTICE_POSITION_DEFAULT = 2
};

enum notice_wrap {
    /* Lines are truncated at the width, and no count says so. */
    NOTICE_WRAP_OFF = 0,
    /* Lines are broken at whitespace, or in a word wider than a row; whitespace that would end a broken row
       is dropped. */
    NOTICE_WRAP_ON = 1,
    /* Whitespace that would start a line is dropped too. */
    NOTICE_WRAP_TRIM = 2
};

/* How glyphs of the ambiguous width code are read: as one cell or as two. Take what the panel shows: a glyph
   that is read as one cell and shown in two covers the one after it. Take the same in all calls on one text:
   pages counted narrow and drawn wide can leave lines out. */
enum notice_ambiguous {
    NOTICE_AMBIGUOUS_NARROW = 1,
    NOTICE_AMBIGUOUS_WIDE = 2
};

enum notice_shadow {
    NOTICE_SHADOW_NONE = 0,
    /* Its cells get the shadow's style. */
    NOTICE_SHADOW_OVERLAY = 1,
    /* Its cells get the shadow's style and symbol. */
    NOTICE_SHADOW_SYMBOL = 2
};

enum { NOTICE_BLANK_SYMBOL = 32 };
/* Width of a glyph that is read as a notice_ambiguous says. */
enum { NOTICE_WIDTH_AMBIGUOUS = 7 };
/* Cells that are all zeros aren't blank. */
#define NOTICE_BLANK_CELL (UINT64_C(32) << 43)

/* Packing. Each number is cut to the size of its field. */

/* Width is 0 to 6, or NOTICE_WIDTH_AMBIGUOUS. Whitespace: 0 no, 1 yes. */
static inline uint32_t notice_glyph(uint32_t symbol, uint32_t width, uint32_t whitespace, uint32_t style) {
    return (symbol & 0x1FFFFF) << 10 | (width & 7) << 7 | (whitespace & 1) << 6 | (style & 63);
}

static inline uint32_t notice_text_head(uint32_t alignment) {
    return UINT32_C(1) << 31 | (alignment & 3) << 29;
}

static inline uint32_t notice_title_head(uint32_t alignment, uint32_t position) {
    return UINT32_C(1) << 31 | (alignment & 3) << 29 | (position & 3) << 27;
}

/* Returns a style that gives no colours. */
static inline uint64_t notice_style(uint32_t add, uint32_t remove) {
    return (uint64_t)(add & 511) << 37 | (uint64_t)(remove & 511) << 28;
}

/* Returns a style with its foreground given. */
static inline uint64_t notice_with_foreground(uint64_t style, uint8_t foreground) {
    return (style & ~(UINT64_C(511) << 55)) | UINT64_C(1) << 63 | (uint64_t)foreground << 55;
}

/* Returns a style with its background given. */
static inline uint64_t notice_with_background(uint64_t style, uint8_t background) {
    return (style & ~(UINT64_C(511) << 46)) | UINT64_C(1) << 54 | (uint64_t)background << 46;
}

/* Fields of a cell. */

static inline uint32_t notice_cell_symbol(uint64_t cell) { return (uint32_t)(cell >> 43); }
static inline uint8_t notice_cell_foreground(uint64_t cell) { return (uint8_t)(cell >> 35 & 255); }
static inline uint8_t notice_cell_background(uint64_t cell) { return (uint8_t)(cell >> 27 & 255); }
static inline uint16_t notice_cell_modifiers(uint64_t cell) { return (uint16_t)(cell >> 18 & 511); }

/* Fields of a list's entry, a composed line. The mark is 1 on the last composed line of each text line, 0 on
   others, so there are as many marks as text lines; the 15 bits below it are 0. A marked line may hold no glyph:
   abc and two blanks, wrapped at 3 and trimmed, are two lines, and the second, empty, is marked. */

static inline uint16_t notice_entry_first(uint64_t entry) { return (uint16_t)(entry >> 49); }
static inline uint16_t notice_entry_end(uint64_t entry) { return (uint16_t)(entry >> 34 & 0x7FFF); }
static inline uint16_t notice_entry_width(uint64_t entry) { return (uint16_t)(entry >> 18 & 0xFFFF); }
static inline uint8_t notice_entry_alignment(uint64_t entry) { return (uint8_t)(entry >> 16 & 3); }
static inline uint8_t notice_entry_mark(uint64_t entry) { return (uint8_t)(entry >> 15 & 1); }

/* A rectangle of cells. Every rectangle is accepted. Drawing takes the part that is on the screen and frames
   that, so if the area overhangs the screen, the inner area as drawn is smaller than notice_inner says. */
typedef struct notice_area {
    uint16_t x;
    uint16_t y;
    uint16_t width;
    uint16_t height;
} notice_area;

/* A block: the frame around a notice. With all fields 0 it has no frame, padding or shadow, and style 0. */
typedef struct notice_block {
    /* Border symbols. */
    uint32_t top_left;
    uint32_t top_right;
    uint32_t bottom_left;
    uint32_t bottom_right;
    uint32_t vertical_left;
    uint32_t vertical_right;
    uint32_t horizontal_top;
    uint32_t horizontal_bottom;
    /* Symbol of a symbol shadow, and the offset of the shadow from the block in columns and rows. */
    uint32_t shadow_symbol;
    int32_t shadow_x;
    int32_t shadow_y;
    /* Padding inside the borders, in columns and rows. */
    uint16_t padding_left;
    uint16_t padding_right;
    uint16_t padding_top;
    uint16_t padding_bottom;
    /* Which sides have a border: 0 no, 1 yes. */
    uint8_t border_top;
    uint8_t border_right;
    uint8_t border_bottom;
    uint8_t border_left;
    /* Style numbers of the borders, of the whole block and of the titles' areas. */
    uint8_t border_style;
    uint8_t style;
    uint8_t titles_style;
    /* Defaults for titles whose heads give none: a notice_alignment and a notice_position other than
       default. */
    uint8_t titles_alignment;
    uint8_t titles_position;
    /* A notice_shadow. The symbol is only checked for a symbol shadow, the style number for that and for an
       overlay. */
    uint8_t shadow;
    uint8_t shadow_style;
} notice_block;

/* Settings of a notice other than its block: those of its text. With all other fields 0 it isn't wrapped: lines
   are cut off at the width. `ambiguous` has no case 0, so settings whose fields are all 0 are answered with 255. */
typedef struct notice_text {
    /* Index of the first line drawn, from 0. */
    uint16_t scroll;
    /* Unwrapped: first column shown of left-aligned lines, from 0; other lines aren't scrolled. */
    uint16_t column;
    /* Style numbers of the area that the text is laid into, and of its glyphs, which then get their own style. */
    uint8_t style;
    uint8_t text_style;
    /* Default alignment, of lines whose heads have alignment 3: a notice_alignment other than default. */
    uint8_t alignment;
    /* A notice_wrap. */
    uint8_t wrap;
    /* A notice_ambiguous, for the glyphs of the text. */
    uint8_t ambiguous;
} notice_text;

/* Number of lines written, and 0 or the refusal number. */
typedef struct notice_list_answer {
    size_t lines;
    uint32_t number;
} notice_list_answer;

/* 0 or the refusal number, and the tally. The last five counts add up to the glyphs of the text, except
   at limit 0, where all are 0. */
typedef struct notice_tally_answer {
    uint32_t number;
    /* Number of composed lines. */
    uint32_t lines;
    /* Glyphs in a line, of width above 0, that end at the limit or before it. */
    uint32_t placed;
    /* Glyphs in a line, of width above 0, that run past the limit, or start at or past it. */
    uint32_t clipped;
    /* Glyphs in a line, of width 0. */
    uint32_t zero_width;
    /* Glyphs in no line because they are wider than the limit. */
    uint32_t over_wide;
    /* Whitespace glyphs in no line because a line was broken or trimmed there. */
    uint32_t dropped;
} notice_tally_answer;

/* 0 or the refusal number, and the inner area, four zeros if refused. */
typedef struct notice_area_answer {
    uint32_t number;
    uint16_t x;
    uint16_t y;
    uint16_t width;
    uint16_t height;
} notice_area_answer;

/* 0 or the refusal number; rows drawn, glyphs of the text placed, whose cells are all in its area, and
   glyphs clipped: those of width above 0 that run past its right edge, or start at or past it. Glyphs of an
   unwrapped text that are cut off or scrolled out are in neither count. */
typedef struct notice_draw_answer {
    uint32_t number;
    uint32_t rows;
    uint32_t placed;
    uint32_t clipped;
} notice_draw_answer;

/* 0 or the refusal number, and the inner area as drawn, the number of composed lines and that of pages. */
typedef struct notice_pages_answer {
    uint32_t number;
    uint16_t x;
    uint16_t y;
    uint16_t width;
    uint16_t height;
    uint32_t lines;
    uint32_t pages;
} notice_pages_answer;

/* 0 or the refusal number, and a number of lines or columns. */
typedef struct notice_measure_answer {
    uint32_t number;
    uint32_t value;
} notice_measure_answer;

/* Writes the composed lines of a text, wrapped at the limit, to the list from entry 0; later entries are
   kept. Ambiguous is a notice_ambiguous; an entry doesn't say which, so read its glyphs by the same one.
   Alignment is the default alignment, a notice_alignment other than default. Trim: 0 no, 1 yes. Limit 0
   gives no line; at any other each text line, also an empty one, has one marked entry, its last.
   Refused with 3, 4, 8, 9; 255 for ambiguous, alignment and trim. */
notice_list_answer notice_list_lines(const uint32_t *text, size_t text_len, uint8_t ambiguous,
                                     uint8_t alignment, uint16_t limit, uint8_t trim, uint64_t *list,
                                     size_t list_len);

/* Counts the lines and glyphs of a text, wrapped at the limit. Ambiguous is a notice_ambiguous. Trim: 0 no,
   1 yes.
   Refused with 3, 4, 8; 255 for ambiguous and trim. */
notice_tally_answer notice_tally(const uint32_t *text, size_t text_len, uint8_t ambiguous, uint16_t limit,
                                 uint8_t trim);

/* Returns the inner area: an area less its borders, titles and padding, whatever the screen. For area
   (0, 0, 40, 20) and four borders that is 38 x 18, but drawing on 34 x 9 cells uses 32 x 7: paging by 18
   rows would show 7 of every 18 lines, and lines counted at 38 columns would be too few. For paging use
   notice_pages.
   Refused with 5, 7; 255 for the block. */
notice_area_answer notice_inner(notice_block block, const uint32_t *titles, size_t titles_len,
                                notice_area area);

/* Draws a block with its titles on the cells; titles that don't fit are cut off. Ambiguous is a
   notice_ambiguous, for the titles' glyphs. Returns 0 or the refusal number.
   Refused with 1, 2, 5, 6, 7; 255 for ambiguous and the block. */
uint32_t notice_draw_block(uint32_t columns, uint32_t rows, uint64_t *cells, size_t cells_len,
                           const uint64_t *styles, size_t styles_len, const uint32_t *titles,
                           size_t titles_len, uint8_t ambiguous, notice_area area, notice_block block);

/* Draws the frame of a notice on the cells: the notice's style, a style number, over the part of the area that is
   on the screen, then its block with its titles, as notice_draw_block does. Ambiguous is a notice_ambiguous, for
   the titles' glyphs. Returns the inner area of that part, for notice_draw_text: unlike notice_inner's it is the
   one that is drawn in. It may have no cell. Inner cells keep their symbols.
   Refused with 1, 2, 5, 6, 7; 255 for ambiguous and the block. */
notice_area_answer notice_draw_frame(uint32_t columns, uint32_t rows, uint64_t *cells, size_t cells_len,
                                     const uint64_t *styles, size_t styles_len, const uint32_t *titles,
                                     size_t titles_len, uint8_t ambiguous, notice_area area,
                                     uint8_t style, notice_block block);

/* Lays the text of a notice into the part of an area that is on the screen: the notice's style, then its lines
   from the scroll row on, wrapped and clipped at the width of that part. Changes no cell outside the area. Cells
   without a glyph keep their symbols, so start on blank cells unless the old symbols are to show through.
   Refused with 1, 2, 3, 4, 6; 255 for the settings. */
notice_draw_answer notice_draw_text(uint32_t columns, uint32_t rows, uint64_t *cells, size_t cells_len,
                                    const uint64_t *styles, size_t styles_len, const uint32_t *text,
                                    size_t text_len, notice_area area, notice_text settings);

/* Returns the pages of a notice, given as it is to notice_draw_frame and notice_draw_text together; its scroll
   row is ignored, and the cells are neither read nor written, only their number is checked. Lines and pages are 0
   if the inner area has no cell, and also for an empty text: to show its frame, draw it once.
   Refused with 1 to 7, exactly if one of those two calls is, so that it tells beforehand whether a notice can be
   drawn; 255 for block and settings. */
notice_pages_answer notice_pages(uint32_t columns, uint32_t rows, const uint64_t *cells,
                                 size_t cells_len, const uint64_t *styles, size_t styles_len,
                                 const uint32_t *text, size_t text_len, const uint32_t *titles,
                                 size_t titles_len, notice_area area, notice_block block,
                                 notice_text settings);

/* Returns the number of rows that a notice needs if its lines have this width, including the rows of
   borders, titles and padding; 0 at width 0. The width is the inner one: it isn't reduced by the frame.
   Of the settings only `wrap` and `ambiguous` affect the result, but all settings with numbered cases are
   checked.
   Refused with 3, 4, 5, 7, 8; 255 for block and settings. */
notice_measure_answer notice_line_count(const uint32_t *text, size_t text_len, const uint32_t *titles,
                                        size_t titles_len, notice_block block, notice_text settings,
                                        uint16_t width);

/* Returns the width of the widest text line, including the columns of borders and padding. Ambiguous is a
   notice_ambiguous. A line that is wrapped at its own width may still be broken before glyphs of width 0.
   Refused with 3, 4, 5, 7; 255 for ambiguous and the block. */
notice_measure_answer notice_line_width(const uint32_t *text, size_t text_len, uint8_t ambiguous,
                                        const uint32_t *titles, size_t titles_len, notice_block block);

#ifdef __cplusplus
}
#endif

/* The archive expects these sizes; C++11 and C11 compilers check them. */
#if defined __cplusplus && __cplusplus >= 201103L
#define NOTICE_SIZE(type, size) static_assert(sizeof(type) == size, #type)
#elif defined __STDC_VERSION__ && __STDC_VERSION__ >= 201112L
#define NOTICE_SIZE(type, size) _Static_assert(sizeof(type) == size, #type)
#endif
#ifdef NOTICE_SIZE
NOTICE_SIZE(size_t, 8);
NOTICE_SIZE(notice_area, 8);
NOTICE_SIZE(notice_block, 64);
NOTICE_SIZE(notice_text, 10);
NOTICE_SIZE(notice_list_answer, 16);
NOTICE_SIZE(notice_tally_answer, 28);
NOTICE_SIZE(notice_area_answer, 12);
NOTICE_SIZE(notice_draw_answer, 16);
NOTICE_SIZE(notice_pages_answer, 20);
NOTICE_SIZE(notice_measure_answer, 8);
#undef NOTICE_SIZE
#endif

#endif
