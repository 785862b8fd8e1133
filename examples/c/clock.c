/* A clock in a framed notice: the frame and the notice are drawn once, and each minute one word is drawn again,
   by notice_draw_text alone. Prints the screen at the start and at the end, and checks at each minute that no cell
   outside the word's area has changed. Ends with `all as promised`, or with the failed check and exit status 1. */
#include "notice.h"

#include <stdbool.h>
#include <stdio.h>
#include <stdlib.h>
#include <string.h>

enum { COLUMNS = 30, ROWS = 5, CELLS = COLUMNS * ROWS, WORD = 5 };

/* Style numbers: indices into the style table. */
enum { PLAIN, TIME, STYLES };

static const notice_area AREA = {.x = 1, .y = 0, .width = 28, .height = 5};
/* The clock's word: five cells in the frame's last row but one, at the right. */
static const notice_area CLOCK = {.x = 22, .y = 3, .width = WORD, .height = 1};

static const notice_block BLOCK = {
    .top_left = '+',
    .top_right = '+',
    .bottom_left = '+',
    .bottom_right = '+',
    .vertical_left = '|',
    .vertical_right = '|',
    .horizontal_top = '-',
    .horizontal_bottom = '-',
    .padding_left = 1,
    .padding_right = 1,
    .border_top = 1,
    .border_right = 1,
    .border_bottom = 1,
    .border_left = 1,
};

static const notice_text SETTINGS = {
    .wrap = NOTICE_WRAP_TRIM,
    .ambiguous = NOTICE_AMBIGUOUS_NARROW,
};

static uint64_t cells[CELLS];
static uint64_t styles[STYLES];

static void check(bool holds, const char *what) {
    if (!holds) {
        printf("not so: %s\n", what);
        exit(1);
    }
}

/* Writes the records of one line of plain text and returns their number. */
static size_t packed(uint32_t *records, const char *line) {
    size_t count = 0;
    records[count++] = notice_text_head(NOTICE_ALIGN_DEFAULT);
    for (const char *c = line; *c != '\0'; c++) {
        records[count++] = notice_glyph((unsigned char)*c, 1, *c == ' ', PLAIN);
    }
    return count;
}

/* Draws the frame and the notice, on blank cells. */
static void draw_once(void) {
    static const char TEXT[] = "Door 7 is locked until noon.";
    uint32_t text[sizeof TEXT];
    for (size_t i = 0; i < CELLS; i++) {
        cells[i] = NOTICE_BLANK_CELL;
    }
    notice_area_answer frame =
        notice_draw_frame(COLUMNS, ROWS, cells, CELLS, styles, STYLES, NULL, 0, SETTINGS.ambiguous, AREA,
                          SETTINGS.style, BLOCK);
    check(frame.number == NOTICE_ACCEPTED, "frame accepted");
    notice_area inner = {frame.x, frame.y, frame.width, frame.height};
    notice_draw_answer drawn = notice_draw_text(COLUMNS, ROWS, cells, CELLS, styles, STYLES, text,
                                                packed(text, TEXT), inner, SETTINGS);
    check(drawn.number == NOTICE_ACCEPTED && drawn.clipped == 0, "text accepted, nothing clipped");
}

/* Draws the time again. It always has five glyphs, " 9:59" or "10:00": where a text has no glyph the old symbol
   stays. A blank is a glyph too, and isn't trimmed if it is no whitespace or the text is unwrapped. */
static void draw_time(unsigned minute) {
    char word[16];
    uint32_t text[WORD + 1];
    notice_text settings = SETTINGS;
    settings.wrap = NOTICE_WRAP_OFF;
    settings.text_style = TIME;
    snprintf(word, sizeof word, "%2u:%02u", minute / 60 % 24, minute % 60);
    notice_draw_answer drawn = notice_draw_text(COLUMNS, ROWS, cells, CELLS, styles, STYLES, text,
                                                packed(text, word), CLOCK, settings);
    check(drawn.number == NOTICE_ACCEPTED && drawn.placed == WORD, "the time in its five cells");
}

static bool in_clock(size_t cell) {
    size_t column = cell % COLUMNS, row = cell / COLUMNS;
    return row == CLOCK.y && CLOCK.x <= column && column < (size_t)CLOCK.x + CLOCK.width;
}

static void print_screen(void) {
    for (size_t cell = 0; cell < CELLS; cell++) {
        putchar((int)notice_cell_symbol(cells[cell]));
        if (cell % COLUMNS == COLUMNS - 1) {
            putchar('\n');
        }
    }
}

int main(void) {
    uint64_t framed[CELLS];
    styles[PLAIN] = notice_style(0, 0);
    styles[TIME] = notice_with_foreground(notice_style(1, 0), 3);
    draw_once();
    memcpy(framed, cells, sizeof cells);
    for (unsigned minute = 9 * 60 + 58; minute <= 10 * 60 + 1; minute++) {
        draw_time(minute);
        for (size_t cell = 0; cell < CELLS; cell++) {
            check(in_clock(cell) || cells[cell] == framed[cell], "only the word's cells change");
        }
        print_screen();
    }
    printf("all as promised\n");
    return 0;
}
