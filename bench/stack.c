/* Measures the stack that each function of the archive takes, on a stack painted beforehand. For gcc on x86-64, from the
   repository's root:

     (cd crates/notice_c && rt lib)
     mkdir -p bench/target
     gcc -O2 -std=c11 -Wall -Wextra -maccumulate-outgoing-args -Iinclude bench/stack.c crates/notice_c/out/libnotice_c.a -o bench/target/stack
     bench/target/stack

   Each call is made on notices of every alignment, wrap, shadow and ambiguous width with sixteen titles, and the deepest byte
   written counts.
   tools/stack tells from the code what each call can take at most: no figure printed here is larger. Bytes are counted
   from the caller's stack pointer at the call, for which the flag reserves the arguments' place beforehand. */
#define _DEFAULT_SOURCE
#include <stdio.h>
#include <stdlib.h>
#include <string.h>
#include <ucontext.h>

#include "notice.h"

enum { PAINT = 0xA5, STACK = 1 << 16, COLUMNS = 80, ROWS = 24, CELLS = COLUMNS * ROWS, WORDS = 400 };

static unsigned char stack[STACK];
static const unsigned char *at_call;
static ucontext_t here, there;

/* What the calls are given. */
static uint64_t cells[CELLS], list[16384];
static const uint64_t styles[1];
static uint32_t text[WORDS * 6], titles[NOTICE_MAX_TITLES * 9];
static size_t text_len, titles_len;
static const notice_area area = {1, 1, COLUMNS - 4, ROWS - 4};
static notice_block block;
static notice_text settings;
static uint32_t number;

/* Notes the stack pointer: it is the same at the call after it. */
#define AT_CALL() __asm__ volatile("mov %%rsp, %0" : "=m"(at_call) : : "memory")

static void list_lines(void) {
    AT_CALL();
    number = notice_list_lines(text, text_len, settings.ambiguous, 0, 20, 1, list, 16384).number;
}

static void tally(void) {
    AT_CALL();
    number = notice_tally(text, text_len, settings.ambiguous, 20, 1).number;
}

static void inner(void) {
    AT_CALL();
    number = notice_inner(block, titles, titles_len, area).number;
}

static void draw_block(void) {
    AT_CALL();
    number = notice_draw_block(COLUMNS, ROWS, cells, CELLS, styles, 1, titles, titles_len, settings.ambiguous, area,
                               block);
}

static void draw_frame(void) {
    AT_CALL();
    number = notice_draw_frame(COLUMNS, ROWS, cells, CELLS, styles, 1, titles, titles_len, settings.ambiguous, area,
                               settings.style, block).number;
}

static void draw_text(void) {
    AT_CALL();
    number = notice_draw_text(COLUMNS, ROWS, cells, CELLS, styles, 1, text, text_len, area, settings).number;
}

static void pages(void) {
    AT_CALL();
    number = notice_pages(COLUMNS, ROWS, cells, CELLS, styles, 1, text, text_len, titles, titles_len, area, block,
                          settings).number;
}

static void line_count(void) {
    AT_CALL();
    number = notice_line_count(text, text_len, titles, titles_len, block, settings, 20).number;
}

static void line_width(void) {
    AT_CALL();
    number = notice_line_width(text, text_len, settings.ambiguous, titles, titles_len, block).number;
}

static const struct {
    const char *name;
    void (*make)(void);
} CALLS[] = {
    {"notice_draw_block", draw_block}, {"notice_draw_frame", draw_frame}, {"notice_draw_text", draw_text},
    {"notice_inner", inner},           {"notice_line_count", line_count}, {"notice_line_width", line_width},
    {"notice_list_lines", list_lines}, {"notice_pages", pages},           {"notice_tally", tally},
};

/* Makes a call on the painted stack and returns how far below the caller's stack pointer it wrote. */
static size_t painted(void (*make)(void)) {
    memset(stack, PAINT, STACK);
    getcontext(&there);
    there.uc_stack.ss_sp = stack;
    there.uc_stack.ss_size = STACK;
    there.uc_link = &here;
    makecontext(&there, make, 0);
    swapcontext(&here, &there);
    if (number != NOTICE_ACCEPTED) {
        fprintf(stderr, "refused with %u\n", (unsigned)number);
        exit(1);
    }
    const unsigned char *lowest = stack;
    while (*lowest == PAINT)
        lowest++;
    return (size_t)(at_call - lowest);
}

/* Widths of one and two cells and the ambiguous one. */
static uint32_t width(uint32_t choice) {
    return choice % 3 == 2 ? NOTICE_WIDTH_AMBIGUOUS : 1 + choice % 3;
}

/* Words of one to five glyphs, each after a space, and sixteen titles of one alignment, half of them below. */
static void fill(uint32_t alignment) {
    text_len = titles_len = 0;
    text[text_len++] = notice_text_head(alignment);
    for (uint32_t word = 0; word < WORDS; word++)
        for (uint32_t glyph = 0; glyph <= word % 5; glyph++)
            text[text_len++] = notice_glyph(glyph ? 97 + glyph : NOTICE_BLANK_SYMBOL, width(word), glyph == 0, 0);
    for (uint32_t title = 0; title < NOTICE_MAX_TITLES; title++) {
        titles[titles_len++] = notice_title_head(alignment, title % 2);
        for (uint32_t glyph = 0; glyph < title % 9; glyph++)
            titles[titles_len++] = notice_glyph(65 + title, width(glyph), 0, 0);
    }
}

int main(void) {
    size_t most[sizeof CALLS / sizeof *CALLS] = {0};
    memset(&block, 0, sizeof block);
    block.border_top = block.border_right = block.border_bottom = block.border_left = 1;
    block.shadow_x = block.shadow_y = 1;
    for (int choice = 0; choice < 3 * 3 * 3 * 2; choice++) {
        fill(choice % 3);
        settings.wrap = choice / 3 % 3;
        block.shadow = choice / 9 % 3;
        settings.ambiguous = choice / 27 ? NOTICE_AMBIGUOUS_WIDE : NOTICE_AMBIGUOUS_NARROW;
        for (size_t call = 0; call < sizeof CALLS / sizeof *CALLS; call++) {
            size_t bytes = painted(CALLS[call].make);
            if (bytes > most[call])
                most[call] = bytes;
        }
    }
    for (size_t call = 0; call < sizeof CALLS / sizeof *CALLS; call++)
        printf("%5zu bytes: %s\n", most[call], CALLS[call].name);
    return 0;
}
