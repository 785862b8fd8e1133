//! The structs and functions of include/notice.h, and each call with slices in place of pointers and
//! lengths. All unsafe code is here.

#[repr(C)]
#[derive(Clone, Copy)]
pub struct Area {
    pub x: u16,
    pub y: u16,
    pub width: u16,
    pub height: u16,
}

#[repr(C)]
#[derive(Clone, Copy)]
pub struct Block {
    pub top_left: u32,
    pub top_right: u32,
    pub bottom_left: u32,
    pub bottom_right: u32,
    pub vertical_left: u32,
    pub vertical_right: u32,
    pub horizontal_top: u32,
    pub horizontal_bottom: u32,
    pub shadow_symbol: u32,
    pub shadow_x: i32,
    pub shadow_y: i32,
    pub padding_left: u16,
    pub padding_right: u16,
    pub padding_top: u16,
    pub padding_bottom: u16,
    pub border_top: u8,
    pub border_right: u8,
    pub border_bottom: u8,
    pub border_left: u8,
    pub border_style: u8,
    pub style: u8,
    pub titles_style: u8,
    pub titles_alignment: u8,
    pub titles_position: u8,
    pub shadow: u8,
    pub shadow_style: u8,
}

#[repr(C)]
#[derive(Clone, Copy)]
pub struct Text {
    pub scroll: u16,
    pub column: u16,
    pub style: u8,
    pub text_style: u8,
    pub alignment: u8,
    pub wrap: u8,
    pub ambiguous: u8,
}

#[repr(C)]
pub struct ListAnswer {
    pub lines: usize,
    pub number: u32,
}

#[repr(C)]
pub struct TallyAnswer {
    pub number: u32,
    pub lines: u32,
    pub placed: u32,
    pub clipped: u32,
    pub zero_width: u32,
    pub over_wide: u32,
    pub dropped: u32,
}

#[repr(C)]
pub struct AreaAnswer {
    pub number: u32,
    pub x: u16,
    pub y: u16,
    pub width: u16,
    pub height: u16,
}

#[repr(C)]
pub struct DrawAnswer {
    pub number: u32,
    pub rows: u32,
    pub placed: u32,
    pub clipped: u32,
}

#[repr(C)]
pub struct PagesAnswer {
    pub number: u32,
    pub x: u16,
    pub y: u16,
    pub width: u16,
    pub height: u16,
    pub lines: u32,
    pub pages: u32,
}

#[repr(C)]
pub struct MeasureAnswer {
    pub number: u32,
    pub value: u32,
}

const _: () = assert!(size_of::<Area>() == 8 && size_of::<Block>() == 64);
const _: () = assert!(size_of::<Text>() == 10 && size_of::<ListAnswer>() == 16);
const _: () = assert!(size_of::<TallyAnswer>() == 28 && size_of::<AreaAnswer>() == 12);
const _: () = assert!(size_of::<DrawAnswer>() == 16 && size_of::<PagesAnswer>() == 20);
const _: () = assert!(size_of::<MeasureAnswer>() == 8);

unsafe extern "C" {
    fn notice_list_lines(
        text: *const u32,
        text_len: usize,
        ambiguous: u8,
        alignment: u8,
        limit: u16,
        trim: u8,
        list: *mut u64,
        list_len: usize,
    ) -> ListAnswer;

    fn notice_tally(
        text: *const u32,
        text_len: usize,
        ambiguous: u8,
        limit: u16,
        trim: u8,
    ) -> TallyAnswer;

    fn notice_inner(block: Block, titles: *const u32, titles_len: usize, area: Area) -> AreaAnswer;

    fn notice_draw_block(
        columns: u32,
        rows: u32,
        cells: *mut u64,
        cells_len: usize,
        styles: *const u64,
        styles_len: usize,
        titles: *const u32,
        titles_len: usize,
        ambiguous: u8,
        area: Area,
        block: Block,
    ) -> u32;

    fn notice_draw_frame(
        columns: u32,
        rows: u32,
        cells: *mut u64,
        cells_len: usize,
        styles: *const u64,
        styles_len: usize,
        titles: *const u32,
        titles_len: usize,
        ambiguous: u8,
        area: Area,
        style: u8,
        block: Block,
    ) -> AreaAnswer;

    fn notice_draw_text(
        columns: u32,
        rows: u32,
        cells: *mut u64,
        cells_len: usize,
        styles: *const u64,
        styles_len: usize,
        text: *const u32,
        text_len: usize,
        area: Area,
        settings: Text,
    ) -> DrawAnswer;

    fn notice_pages(
        columns: u32,
        rows: u32,
        cells: *const u64,
        cells_len: usize,
        styles: *const u64,
        styles_len: usize,
        text: *const u32,
        text_len: usize,
        titles: *const u32,
        titles_len: usize,
        area: Area,
        block: Block,
        settings: Text,
    ) -> PagesAnswer;

    fn notice_line_count(
        text: *const u32,
        text_len: usize,
        titles: *const u32,
        titles_len: usize,
        block: Block,
        settings: Text,
        width: u16,
    ) -> MeasureAnswer;

    fn notice_line_width(
        text: *const u32,
        text_len: usize,
        ambiguous: u8,
        titles: *const u32,
        titles_len: usize,
        block: Block,
    ) -> MeasureAnswer;
}

// SAFETY of every call below: the functions accept all numbers. They require that each pointer is to
// as many elements as its length says, and that memory written doesn't overlap memory read. Slices
// ensure the first, and mutable slices, which are exclusive borrows, the second.

pub fn list_lines(
    text: &[u32],
    ambiguous: u8,
    alignment: u8,
    limit: u16,
    trim: u8,
    list: &mut [u64],
) -> ListAnswer {
    // SAFETY: above.
    unsafe {
        notice_list_lines(
            text.as_ptr(),
            text.len(),
            ambiguous,
            alignment,
            limit,
            trim,
            list.as_mut_ptr(),
            list.len(),
        )
    }
}

pub fn tally(text: &[u32], ambiguous: u8, limit: u16, trim: u8) -> TallyAnswer {
    // SAFETY: above.
    unsafe { notice_tally(text.as_ptr(), text.len(), ambiguous, limit, trim) }
}

pub fn inner(block: Block, titles: &[u32], area: Area) -> AreaAnswer {
    // SAFETY: above.
    unsafe { notice_inner(block, titles.as_ptr(), titles.len(), area) }
}

pub fn draw_block(
    [columns, rows]: [u32; 2],
    cells: &mut [u64],
    styles: &[u64],
    titles: &[u32],
    ambiguous: u8,
    area: Area,
    block: Block,
) -> u32 {
    // SAFETY: above.
    unsafe {
        notice_draw_block(
            columns,
            rows,
            cells.as_mut_ptr(),
            cells.len(),
            styles.as_ptr(),
            styles.len(),
            titles.as_ptr(),
            titles.len(),
            ambiguous,
            area,
            block,
        )
    }
}

#[expect(clippy::too_many_arguments, reason = "as many as the call has")]
pub fn draw_frame(
    [columns, rows]: [u32; 2],
    cells: &mut [u64],
    styles: &[u64],
    titles: &[u32],
    ambiguous: u8,
    area: Area,
    style: u8,
    block: Block,
) -> AreaAnswer {
    // SAFETY: above.
    unsafe {
        notice_draw_frame(
            columns,
            rows,
            cells.as_mut_ptr(),
            cells.len(),
            styles.as_ptr(),
            styles.len(),
            titles.as_ptr(),
            titles.len(),
            ambiguous,
            area,
            style,
            block,
        )
    }
}

pub fn draw_text(
    [columns, rows]: [u32; 2],
    cells: &mut [u64],
    styles: &[u64],
    text: &[u32],
    area: Area,
    settings: Text,
) -> DrawAnswer {
    // SAFETY: above.
    unsafe {
        notice_draw_text(
            columns,
            rows,
            cells.as_mut_ptr(),
            cells.len(),
            styles.as_ptr(),
            styles.len(),
            text.as_ptr(),
            text.len(),
            area,
            settings,
        )
    }
}

#[allow(dead_code, reason = "other programs include this file and needn't page")]
#[expect(clippy::too_many_arguments, reason = "as many as the call has")]
pub fn pages(
    [columns, rows]: [u32; 2],
    cells: &[u64],
    styles: &[u64],
    text: &[u32],
    titles: &[u32],
    area: Area,
    block: Block,
    settings: Text,
) -> PagesAnswer {
    // SAFETY: above.
    unsafe {
        notice_pages(
            columns,
            rows,
            cells.as_ptr(),
            cells.len(),
            styles.as_ptr(),
            styles.len(),
            text.as_ptr(),
            text.len(),
            titles.as_ptr(),
            titles.len(),
            area,
            block,
            settings,
        )
    }
}

pub fn line_count(
    text: &[u32],
    titles: &[u32],
    block: Block,
    settings: Text,
    width: u16,
) -> MeasureAnswer {
    // SAFETY: above.
    unsafe {
        notice_line_count(
            text.as_ptr(),
            text.len(),
            titles.as_ptr(),
            titles.len(),
            block,
            settings,
            width,
        )
    }
}

pub fn line_width(text: &[u32], ambiguous: u8, titles: &[u32], block: Block) -> MeasureAnswer {
    // SAFETY: above.
    unsafe {
        notice_line_width(
            text.as_ptr(),
            text.len(),
            ambiguous,
            titles.as_ptr(),
            titles.len(),
            block,
        )
    }
}
