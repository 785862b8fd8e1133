/* Draws a framed notice of two pages on blank cells, in an area within the screen and in one that overhangs
   it, prints the screens and the tallies, measures a text with an ambiguous glyph, read narrow and wide, and
   tries calls that are refused. Ends with `all as promised`, or with the failed check and exit status 1. */
#include "notice.h"

#include <stdbool.h>
#include <stdio.h>
#include <stdlib.h>
#include <string.h>

enum { COLUMNS = 34, ROWS = 9, CELLS = COLUMNS * ROWS };

/* Style numbers: indices into the style table. */
enum { PLAIN, FRAME, HEADLINE, SHADE, BADGE };

static void check(bool holds, const char *what) {
    if (!holds) {
        printf("not so: %s\n", what);
        exit(1);
    }
}

static void *allocated(size_t size) {
    void *memory = malloc(size);
    check(memory != NULL, "memory");
    return memory;
}

/* Returns a glyph of width 1. */
static uint32_t glyph(char symbol, uint32_t style) {
    return notice_glyph((unsigned char)symbol, 1, symbol == ' ', style);
}

/* Records in an allocation of exactly their size, so that a read past them is detected. */

typedef struct records {
    uint32_t *at;
    size_t count;
} records;

/* Returns the records of lines of plain text; digits have a separate style. */
static records packed(uint32_t opening, const char *lines, uint32_t letters, uint32_t digits) {
    uint32_t all[NOTICE_MAX_RECORDS];
    size_t count = 0;
    all[count++] = opening;
    for (const char *c = lines; *c != '\0'; c++) {
        check(count < NOTICE_MAX_RECORDS, "room for records");
        bool digit = '0' <= *c && *c <= '9';
        all[count++] = *c == '\n' ? opening : glyph(*c, digit ? digits : letters);
    }
    records made = {allocated(count * sizeof *all), count};
    memcpy(made.at, all, count * sizeof *all);
    return made;
}

/* Printing. */

/* Prints a symbol in UTF-8. All symbols here have at most 16 bits. */
static void print_symbol(uint32_t symbol) {
    if (symbol < 0x80) {
        putchar((int)symbol);
    } else if (symbol < 0x800) {
        printf("%c%c", 0xC0 | symbol >> 6, 0x80 | (symbol & 63));
    } else {
        printf("%c%c%c", 0xE0 | symbol >> 12, 0x80 | (symbol >> 6 & 63), 0x80 | (symbol & 63));
    }
}

/* Prints each row's symbols and, next to them, its foregrounds, a dot for none. */
static void print_screen(const uint64_t *cells) {
    for (size_t row = 0; row < ROWS; row++) {
        const uint64_t *at = cells + row * COLUMNS;
        for (size_t column = 0; column < COLUMNS; column++) {
            print_symbol(notice_cell_symbol(at[column]));
        }
        printf("  ");
        for (size_t column = 0; column < COLUMNS; column++) {
            unsigned foreground = notice_cell_foreground(at[column]);
            putchar(foreground == 0 ? '.' : (int)('0' + foreground % 10));
        }
        putchar('\n');
    }
}

static void clear(uint64_t *cells) {
    for (size_t i = 0; i < CELLS; i++) {
        cells[i] = NOTICE_BLANK_CELL;
    }
}

/* The notice. */

static const notice_area AREA = {.x = 1, .y = 1, .width = 30, .height = 7};
static const notice_area OVERHANGING = {.x = 0, .y = 0, .width = 40, .height = 20};

static const notice_block BLOCK = {
    .top_left = 0x256D,
    .top_right = 0x256E,
    .bottom_left = 0x2570,
    .bottom_right = 0x256F,
    .vertical_left = 0x2502,
    .vertical_right = 0x2502,
    .horizontal_top = 0x2500,
    .horizontal_bottom = 0x2500,
    .shadow_symbol = 0x2592,
    .shadow_x = 2,
    .shadow_y = 1,
    .padding_left = 2,
    .padding_right = 1,
    .border_top = 1,
    .border_right = 1,
    .border_bottom = 1,
    .border_left = 1,
    .border_style = FRAME,
    .style = PLAIN,
    .titles_style = FRAME,
    .titles_alignment = NOTICE_ALIGN_CENTRE,
    .titles_position = NOTICE_POSITION_TOP,
    .shadow = NOTICE_SHADOW_SYMBOL,
    .shadow_style = SHADE,
};

static const notice_text SETTINGS = {
    .style = PLAIN,
    .text_style = PLAIN,
    .alignment = NOTICE_ALIGN_LEFT,
    .wrap = NOTICE_WRAP_TRIM,
    .ambiguous = NOTICE_AMBIGUOUS_NARROW,
};

static const char TEXT[] = "Barred since this morning: 1041, 1177, 2063 and 3310.\n"
                           "\n"
                           "Holders of these badges go to the desk in the lobby. "
                           "Doors 7 and 12 stay locked for all others until noon, "
                           "and door 3 after it.";

typedef struct lent {
    uint64_t *cells;
    uint64_t *styles;
    size_t style_count;
    records text;
    records titles;
} lent;

static notice_area_answer framed(lent all, notice_area area, notice_block block) {
    return notice_draw_frame(COLUMNS, ROWS, all.cells, CELLS, all.styles, all.style_count,
                             all.titles.at, all.titles.count, SETTINGS.ambiguous, area,
                             SETTINGS.style, block);
}

static notice_draw_answer laid(lent all, notice_area area, notice_text settings) {
    return notice_draw_text(COLUMNS, ROWS, all.cells, CELLS, all.styles, all.style_count, all.text.at,
                            all.text.count, area, settings);
}

/* Draws a page: the frame, then the text into the inner area that it returns. */
static notice_draw_answer drawn(lent all, notice_area area, notice_pages_answer pages,
                                notice_text settings) {
    notice_area_answer inner = framed(all, area, BLOCK);
    check(inner.number == NOTICE_ACCEPTED, "frame accepted");
    check(inner.x == pages.x && inner.y == pages.y, "the inner area starts where pages says");
    check(inner.width == pages.width && inner.height == pages.height, "and has its size");
    notice_area inside = {inner.x, inner.y, inner.width, inner.height};
    return laid(all, inside, settings);
}

static notice_pages_answer counted(lent all, notice_area area, notice_block block) {
    return notice_pages(COLUMNS, ROWS, all.cells, CELLS, all.styles, all.style_count, all.text.at,
                        all.text.count, all.titles.at, all.titles.count, area, block, SETTINGS);
}

/* Checks that the inner cells of a page, read row by row, show the text from `next` on without its blanks,
   and returns where the next page continues. */
static const char *read_page(const uint64_t *cells, notice_pages_answer inner, const char *next) {
    for (size_t i = 0; i < (size_t)inner.width * inner.height; i++) {
        size_t row = inner.y + i / inner.width, column = inner.x + i % inner.width;
        uint32_t symbol = notice_cell_symbol(cells[row * COLUMNS + column]);
        if (symbol != NOTICE_BLANK_SYMBOL) {
            check(symbol == (unsigned char)*next, "the next glyph of the text");
            next++;
            next += strspn(next, " \n");
        }
    }
    return next;
}

/* Draws and prints the pages, then the tally, and checks that the pages together show each glyph once. */
static notice_pages_answer draw_pages(lent all, notice_area area) {
    notice_pages_answer pages = counted(all, area, BLOCK);
    check(pages.number == NOTICE_ACCEPTED, "pages accepted");
    check(pages.pages == 2, "two pages");
    printf("inner area as drawn: %u %u, %u x %u\n", pages.x, pages.y, pages.width, pages.height);
    uint32_t rows = 0, placed = 0;
    const char *next = TEXT;
    for (uint32_t page = 0; page < pages.pages; page++) {
        notice_text settings = SETTINGS;
        settings.scroll = (uint16_t)(page * pages.height);
        clear(all.cells);
        notice_draw_answer answer = drawn(all, area, pages, settings);
        check(answer.number == NOTICE_ACCEPTED, "page accepted");
        rows += answer.rows;
        placed += answer.placed;
        next = read_page(all.cells, pages, next);
        printf("page %u of %u: rows %u, placed %u, clipped %u\n", (unsigned)page + 1,
               (unsigned)pages.pages, (unsigned)answer.rows, (unsigned)answer.placed,
               (unsigned)answer.clipped);
        print_screen(all.cells);
    }
    check(*next == '\0', "the whole text on the pages");
    notice_tally_answer tally = notice_tally(all.text.at, all.text.count, SETTINGS.ambiguous, pages.width, 1);
    check(tally.number == NOTICE_ACCEPTED, "tally accepted");
    printf("tally: lines %u, placed %u, clipped %u, zero-width %u, over-wide %u, dropped %u\n",
           (unsigned)tally.lines, (unsigned)tally.placed, (unsigned)tally.clipped,
           (unsigned)tally.zero_width, (unsigned)tally.over_wide, (unsigned)tally.dropped);
    check(pages.lines == tally.lines, "as many lines as tallied");
    check(rows == tally.lines && placed == tally.placed, "every line and glyph on the pages");
    return pages;
}

static void print_measures(lent all, uint16_t width) {
    notice_measure_answer rows = notice_line_count(all.text.at, all.text.count, all.titles.at,
                                                   all.titles.count, BLOCK, SETTINGS, width);
    notice_measure_answer columns =
        notice_line_width(all.text.at, all.text.count, SETTINGS.ambiguous, all.titles.at,
                          all.titles.count, BLOCK);
    check(rows.number == NOTICE_ACCEPTED && columns.number == NOTICE_ACCEPTED, "measures accepted");
    printf("on one page: %u rows; unwrapped: %u columns\n", (unsigned)rows.value,
           (unsigned)columns.value);
}

/* Lists the lines, one entry each, with a bar where a text line ends, and checks that a shorter list is refused
   and unchanged. */
static void list_lines(records text, uint16_t limit, uint32_t lines) {
    uint64_t *list = allocated(lines * sizeof *list);
    notice_list_answer answer = notice_list_lines(text.at, text.count, SETTINGS.ambiguous,
                                                  NOTICE_ALIGN_LEFT, limit, 1, list, lines);
    check(answer.number == NOTICE_ACCEPTED && answer.lines == lines, "lines listed");
    printf("lines:");
    for (size_t i = 0; i < answer.lines; i++) {
        printf(" %u-%u%s", notice_entry_first(list[i]), notice_entry_end(list[i]),
               notice_entry_mark(list[i]) == 1 ? " |" : "");
    }
    printf("\n");
    uint64_t first = list[0];
    answer = notice_list_lines(text.at, text.count, SETTINGS.ambiguous, NOTICE_ALIGN_LEFT, limit, 1,
                               list, lines - 1);
    check(answer.number == NOTICE_REFUSED_LIST_LENGTH && answer.lines == 0,
          "a list too short is refused");
    check(list[0] == first, "and is as it was");
    free(list);
}

/* Prints the columns of the text 7, arrow, 3. The arrow is ambiguous (Unicode UAX 11): screens show it in
   one cell, which is to read it narrow, or in two, wide. */
static void print_readings(void) {
    const uint32_t text[] = {
        notice_text_head(NOTICE_ALIGN_DEFAULT),
        glyph('7', PLAIN),
        notice_glyph(0x2192, NOTICE_WIDTH_AMBIGUOUS, 0, PLAIN),
        glyph('3', PLAIN),
    };
    const size_t count = sizeof text / sizeof *text;
    const notice_block no_frame = {0};
    notice_measure_answer narrow =
        notice_line_width(text, count, NOTICE_AMBIGUOUS_NARROW, NULL, 0, no_frame);
    notice_measure_answer wide =
        notice_line_width(text, count, NOTICE_AMBIGUOUS_WIDE, NULL, 0, no_frame);
    check(narrow.number == NOTICE_ACCEPTED && wide.number == NOTICE_ACCEPTED, "readings accepted");
    printf("7\u2192" "3: %u columns read narrow, %u read wide\n", (unsigned)narrow.value,
           (unsigned)wide.value);
    check(narrow.value == 3 && wide.value == 4, "the arrow in one cell and in two");
}

/* Draws only the frame, without titles and in a corner; then tries a screen without cells. */
static void draw_frames(lent all) {
    notice_area corner = {.x = 28, .y = 6, .width = 20, .height = 20};
    clear(all.cells);
    uint32_t number =
        notice_draw_block(COLUMNS, ROWS, all.cells, CELLS, all.styles, all.style_count, NULL, 0,
                          SETTINGS.ambiguous, corner, BLOCK);
    check(number == NOTICE_ACCEPTED, "no titles, null");
    printf("a block over the edge of the screen, without titles:\n");
    print_screen(all.cells);
    number = notice_draw_block(COLUMNS, ROWS, NULL, 0, NULL, 0, NULL, 0, SETTINGS.ambiguous, corner,
                               BLOCK);
    check(number == NOTICE_REFUSED_SCREEN, "no cells, null");
    notice_list_answer none =
        notice_list_lines(NULL, 0, SETTINGS.ambiguous, NOTICE_ALIGN_CENTRE, 20, 0, NULL, 0);
    check(none.number == NOTICE_ACCEPTED && none.lines == 0, "no text and no list, null");
}

/* Tries style numbers out of range: of the two calls only the one that looks at it is refused, and pages is
   refused too. */
static void refuse_styles(lent all) {
    notice_block block = BLOCK;
    block.border_style = (uint8_t)all.style_count;
    notice_area_answer frame = framed(all, AREA, block);
    check(frame.number == NOTICE_REFUSED_STYLE_NUMBER, "a style number of the frame too high");
    check(frame.x + frame.y + frame.width + frame.height == 0, "four zeros");
    check(counted(all, AREA, block).number == frame.number, "pages refused as the frame is");
    notice_text settings = SETTINGS;
    settings.text_style = (uint8_t)all.style_count;
    notice_draw_answer text = laid(all, AREA, settings);
    check(text.number == NOTICE_REFUSED_STYLE_NUMBER, "a style number of the text too high");
    check(text.rows + text.placed + text.clipped == 0, "counts are 0");
    printf("a style number too high: %u, %u\n", (unsigned)frame.number, (unsigned)text.number);
}

/* Tries settings whose numbers name no case. */
static void refuse_settings(lent all) {
    notice_block block = BLOCK;
    block.shadow = NOTICE_SHADOW_SYMBOL + 1;
    notice_text settings = SETTINGS;
    settings.wrap = NOTICE_WRAP_TRIM + 1;
    notice_area_answer kind = framed(all, AREA, block);
    notice_draw_answer wrap = laid(all, AREA, settings);
    check(kind.number == NOTICE_UNKNOWN_SETTING, "a shadow that names no case");
    check(wrap.number == NOTICE_UNKNOWN_SETTING, "a wrap that names no case");
    printf("a number that names no case: %u\n", (unsigned)kind.number);
    notice_tally_answer trim =
        notice_tally(all.text.at, all.text.count, SETTINGS.ambiguous, 20, 2);
    check(trim.number == NOTICE_UNKNOWN_SETTING, "trim 2");
    settings = SETTINGS;
    settings.ambiguous = 0;
    notice_draw_answer unset = laid(all, AREA, settings);
    check(unset.number == NOTICE_UNKNOWN_SETTING, "ambiguous 0, as in settings that are all 0");
}

/* Makes calls that are refused, and checks that nothing is drawn. */
static void draw_refused(lent all) {
    uint64_t *before = allocated(CELLS * sizeof *before);
    memcpy(before, all.cells, CELLS * sizeof *before);
    refuse_styles(all);
    refuse_settings(all);
    check(memcmp(before, all.cells, CELLS * sizeof *before) == 0, "cells as they were");
    free(before);
}

int main(void) {
    const uint64_t plain = notice_style(0, 0), bold = notice_style(1, 0);
    const uint64_t styles[] = {
        [PLAIN] = plain,
        [FRAME] = notice_with_foreground(plain, 4),
        [HEADLINE] = notice_with_foreground(bold, 3),
        [SHADE] = notice_with_foreground(plain, 8),
        [BADGE] = notice_with_foreground(bold, 1),
    };
    lent all = {
        .cells = allocated(CELLS * sizeof *all.cells),
        .styles = allocated(sizeof styles),
        .style_count = sizeof styles / sizeof *styles,
        .text = packed(notice_text_head(NOTICE_ALIGN_DEFAULT), TEXT, PLAIN, BADGE),
        .titles = packed(notice_title_head(NOTICE_ALIGN_DEFAULT, NOTICE_POSITION_DEFAULT), " Lobby ",
                         HEADLINE, HEADLINE),
    };
    memcpy(all.styles, styles, sizeof styles);

    notice_pages_answer pages = draw_pages(all, AREA);
    print_measures(all, pages.width);
    list_lines(all.text, pages.width, pages.lines);
    print_readings();

    notice_area_answer inner = notice_inner(BLOCK, all.titles.at, all.titles.count, OVERHANGING);
    check(inner.number == NOTICE_ACCEPTED, "inner area accepted");
    printf("an area that overhangs the screen, its inner area: %u %u, %u x %u\n", inner.x, inner.y,
           inner.width, inner.height);
    draw_pages(all, OVERHANGING);

    draw_frames(all);
    draw_refused(all);
    free(all.cells);
    free(all.styles);
    free(all.text.at);
    free(all.titles.at);
    printf("all as promised\n");
    return 0;
}
