//! The Rust's answer: a chart is read, handed to the unmodified `grid_process`,
//! and what comes back is worded as document 01's listing.

use std::panic::{AssertUnwindSafe, catch_unwind};

use chart::{Asked, Asking, Body, MAX_BOXES, MAX_POSITION, Refusal, Setting};
use triple_arena::{Arena, FAR, ptr_struct, traits::Ptr};
use triple_arena_render::{
    DebugNode, RenderError,
    internal::{RenderGrid, RenderNode, grid_process},
};

ptr_struct!(Node());

fn text(bytes: &[u8]) -> String {
    String::from_utf8(bytes.to_vec()).expect("text bytes are 32 to 126, and 1 for a sign")
}

/// The arena of these bodies. In the default setting a target that isn't below n
/// is a pointer that no inserted node can equal.
pub fn arena(bodies: &[Body], setting: Setting) -> Arena<Node, DebugNode<Node>> {
    let pointer = |target: u8| {
        let number = usize::from(target);
        let far = setting == Setting::Default && number >= bodies.len();
        Node::from_number(if far { FAR + number } else { number })
    };
    let ends = |ends: &[chart::End]| {
        ends.iter()
            .map(|end| (pointer(end.target), text(&end.text)))
            .collect()
    };
    let mut arena = Arena::new();
    for body in bodies {
        arena.insert(DebugNode::new(
            ends(&body.sources),
            body.lines.iter().map(|line| text(line)).collect(),
            ends(&body.sinks),
        ));
    }
    arena
}

/// What `grid_process` gives on these bodies: a grid, refusal 12 (by its flag, in
/// the strict setting), or the text of its panic.
pub fn run(
    bodies: &[Body],
    setting: Setting,
) -> Result<Result<RenderGrid<Node>, Refusal>, String> {
    let arena = arena(bodies, setting);
    let flag = setting == Setting::Strict;
    match catch_unwind(AssertUnwindSafe(|| grid_process(&arena, flag))) {
        Ok(Ok(grid)) => Ok(Ok(grid)),
        Ok(Err(RenderError::InvalidPtr(p))) => Ok(Err(Refusal(12, p.inx() as u64))),
        Ok(Err(e)) => Err(format!("{e:?}")),
        Err(cause) => {
            let text = match cause.downcast::<String>() {
                Ok(text) => *text,
                Err(cause) => match cause.downcast::<&str>() {
                    Ok(text) => text.to_string(),
                    Err(_) => "without a text".to_string(),
                },
            };
            Err(text.replace('\n', " "))
        }
    }
}

/// No panic text on standard error.
pub fn quiet() {
    std::panic::set_hook(Box::new(|_| {}));
}

/// Twice a whole or half number, as a path text has it.
fn number(out: &mut String, twice: u64) {
    out.push(' ');
    out.push_str(&(twice / 2).to_string());
    if twice % 2 == 1 {
        out.push_str(".5");
    }
}

fn segment(out: &mut String, letter: char, numbers: &[u64]) {
    if !out.is_empty() {
        out.push(' ');
    }
    out.push(letter);
    for twice in numbers {
        number(out, *twice);
    }
}

/// A box with its column and row.
type Placed<'a> = (usize, usize, &'a RenderNode<Node>);

/// The output point of each curve and its input point, from the Rust's points
/// in module 9's order: per box, per input point.
fn curves(boxes: &[Placed]) -> impl Iterator<Item = ((i32, i32), (i32, i32))> {
    boxes.iter().flat_map(move |(_, _, node)| {
        let inputs = node.input_points.iter();
        inputs.filter_map(move |(input, source, mark)| {
            let outputs = &boxes[source.inx()].2.output_points;
            let output = match mark {
                Some(mark) => Some(outputs[*mark].0),
                None => outputs.iter().find(|o| o.1 == node.ptr).map(|o| o.0),
            };
            output.map(|output| (output, *input))
        })
    })
}

/// Document 01, module 9, on the Rust's boxes and points.
pub fn path(boxes: &[Placed], x: u32, y: u32) -> String {
    let place = |(px, py): (i32, i32)| (2 * (px as u64 + x as u64), 2 * (py as u64 + y as u64));
    let mut out = String::new();
    for (_, _, node) in boxes {
        for (left, top, wx, wy) in &node.rects {
            let (x0, y0) = place((*left, *top));
            let (x1, y1) = place((left + wx, top + wy));
            segment(&mut out, 'M', &[x0, y0]);
            segment(&mut out, 'L', &[x1, y0]);
            segment(&mut out, 'L', &[x1, y1]);
            segment(&mut out, 'L', &[x0, y1]);
            segment(&mut out, 'Z', &[]);
        }
    }
    for (output, input) in curves(boxes) {
        let (ox, oy) = place(output);
        let (ix, iy) = place(input);
        let half = (oy + iy) / 2;
        segment(&mut out, 'M', &[ox, oy]);
        segment(&mut out, 'C', &[ox, half, ix, half, ix, iy]);
    }
    out
}

/// The owner of each box: so many given nodes own themselves; of an inserted one its
/// only text tells: `#q` is node q's, `#t(invalid)` nobody's (255).
fn owners(boxes: &[Placed], given: usize) -> Vec<usize> {
    let shown = |node: &RenderNode<Node>| {
        let [(_, _, _, text)] = &node.text[..] else {
            panic!("an inserted box has one text")
        };
        let number = text.strip_prefix('#').expect("a pointer's Debug text");
        if number.ends_with("(invalid)") {
            255
        } else {
            number.parse().expect("a node's number")
        }
    };
    let all = boxes.iter().enumerate();
    all.map(|(k, (_, _, node))| if k < given { k } else { shown(node) })
        .collect()
}

/// Texts of every box, and the two ends of every curve.
fn labels(boxes: &[Placed]) -> String {
    let mut out = String::new();
    for (k, (_, _, node)) in boxes.iter().enumerate() {
        for (i, ((x, y), size, width, s)) in node.text.iter().enumerate() {
            let s = s.replace(char::from(chart::SIGN), "°");
            out += &format!("text {k} {i} {x} {y} {size} {width} {s}\n");
        }
    }
    for (k, ((x0, y0), (x1, y1))) in curves(boxes).enumerate() {
        out += &format!("curve {k} {x0} {y0} {x1} {y1}\n");
    }
    out
}

/// Input points and output points of every box.
fn points(boxes: &[Placed]) -> String {
    let mut out = String::new();
    for (k, (_, _, node)) in boxes.iter().enumerate() {
        for (i, ((x, y), source, mark)) in node.input_points.iter().enumerate() {
            let mark = mark.map_or("-".to_string(), |mark| mark.to_string());
            out += &format!("in {k} {i} {x} {y} {} {mark}\n", source.inx());
        }
        for (i, ((x, y), sink)) in node.output_points.iter().enumerate() {
            out += &format!("out {k} {i} {x} {y} {}\n", sink.inx());
        }
    }
    out
}

/// The boxes by number, each with its column and row.
pub fn boxes(grid: &RenderGrid<Node>) -> Vec<Placed<'_>> {
    let mut boxes = vec![];
    for (column, cells) in grid.grid.iter().enumerate() {
        for (row, cell) in cells.iter().enumerate() {
            if let Some(node) = cell {
                boxes.push((column, row, node));
            }
        }
    }
    boxes.sort_by_key(|(_, _, node)| node.ptr.inx());
    boxes
}

/// The listing of a grid made of so many given nodes and leads to nothing.
fn sheet(grid: &RenderGrid<Node>, given: usize, leads: usize, asked: Asked) -> String {
    let count = grid.dag.len();
    assert!((count - given - leads).is_multiple_of(2));
    let cuts = (count - given - leads) / 2;
    if count > MAX_BOXES {
        return Refusal(13, 0).line();
    }
    let (width, height) = (grid.tot_wx as u64, grid.tot_wy as u64);
    if width + asked.x as u64 > MAX_POSITION || height + asked.y as u64 > MAX_POSITION {
        return Refusal(14, 0).line();
    }
    let boxes = boxes(grid);
    assert!(boxes.iter().enumerate().all(|(k, b)| b.2.ptr.inx() == k));
    assert_eq!(boxes.len(), count);
    let (columns, rows) = (grid.grid.len(), grid.grid[0].len());
    let mut out = format!("sheet {columns} {rows} {width} {height} {count} {cuts}\n");
    for (k, (column, row, node)) in boxes.iter().enumerate() {
        assert_eq!(node.rects.len(), 1);
        let (x, y, wx, wy) = node.rects[0];
        out += &format!("box {k} {column} {row} {x} {y} {wx} {wy}\n");
    }
    let path = path(&boxes, asked.x, asked.y);
    out += if path.is_empty() { "path" } else { "path " };
    out += &path;
    out += "\n";
    if asked.full {
        let owners = owners(&boxes, given);
        assert!(owners.iter().all(|owner| *owner < given || *owner == 255));
        assert_eq!(owners.iter().filter(|owner| **owner == 255).count(), leads);
        out += "owners";
        for owner in owners {
            out += &format!(" {owner}");
        }
        out += "\n";
        out += &labels(&boxes);
    }
    if asked.points {
        out += &points(&boxes);
    }
    out
}

/// Document 01's listing of a chart, or one line `panic` and its text.
pub fn listing(asking: &Asking, asked: Asked) -> String {
    let bodies = match chart::read(chart::listed(&asking.chart)) {
        Ok(bodies) => bodies,
        Err(refusal) => return refusal.line(),
    };
    match run(&bodies, asking.setting) {
        Ok(Ok(grid)) => sheet(&grid, bodies.len(), chart::leads(&bodies), asked),
        Ok(Err(refusal)) => refusal.line(),
        Err(text) => format!("panic {text}\n"),
    }
}
