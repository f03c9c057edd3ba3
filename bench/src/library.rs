//! The library's calls, as Rust declares C functions.

#[repr(C)]
#[derive(Clone, Copy)]
pub struct Box {
    pub x: u32,
    pub y: u32,
    pub width: u32,
    pub height: u32,
    pub column: u8,
    pub row: u8,
    pub owner: u8,
}

#[repr(C)]
#[derive(Clone, Copy)]
pub struct Curve {
    pub x0: u32,
    pub y0: u32,
    pub x1: u32,
    pub y1: u32,
}

#[repr(C)]
#[derive(Clone, Copy)]
pub struct Sheet {
    pub width: u32,
    pub height: u32,
    pub x: u32,
    pub y: u32,
    pub columns: u8,
    pub rows: u8,
    pub cuts: u8,
    pub count: u8,
    pub drawn: u8,
    pub boxes: [Box; 48],
    pub curves: [Curve; 88],
}

#[repr(C)]
pub struct SheetResult {
    pub refused: u32,
    pub second: u32,
    pub sheet: Sheet,
}

#[repr(C)]
pub struct CountResult {
    pub refused: u32,
    pub second: u64,
    pub count: u64,
}

unsafe extern "C" {
    fn margalhosa_sheet(chart: *const u8, length: u64, x: u32, y: u32, setting: u32) -> SheetResult;
    fn margalhosa_text(sheet: Sheet, buffer: *mut u8, length: u64) -> CountResult;
}

pub fn sheet(chart: &[u8]) -> SheetResult {
    unsafe { margalhosa_sheet(chart.as_ptr(), chart.len() as u64, 0, 0, 1) }
}

pub fn text(sheet: &Sheet, buffer: &mut [u8]) -> CountResult {
    unsafe { margalhosa_text(*sheet, buffer.as_mut_ptr(), buffer.len() as u64) }
}

/// Document 01's listing of a chart, by the library.
pub fn listing(chart: &[u8]) -> String {
    let result = sheet(chart);
    if result.refused != 0 {
        return format!("refused {} {}\n", result.refused, result.second);
    }
    let s = &result.sheet;
    let (columns, rows, count, cuts) = (s.columns, s.rows, s.count, s.cuts);
    let mut out = format!("sheet {columns} {rows} {} {} {count} {cuts}\n", s.width, s.height);
    for (k, b) in s.boxes[..count.into()].iter().enumerate() {
        let (x, y, width, height) = (b.x, b.y, b.width, b.height);
        out += &format!("box {k} {} {} {x} {y} {width} {height}\n", b.column, b.row);
    }
    let mut buffer = [0; 16384];
    let written = text(s, &mut buffer);
    assert_eq!(written.refused, 0);
    let path = String::from_utf8_lossy(&buffer[..written.count as usize]);
    out += if path.is_empty() { "path" } else { "path " };
    out += &path;
    out += "\n";
    out
}
