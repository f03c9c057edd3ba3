//! Stub: the writer of SVG files is no part of the comparison.

pub fn render_to_svg() {}

pub fn render_to_svg_file() {}
