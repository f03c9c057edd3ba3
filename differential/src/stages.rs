//! The stages of the Rust itself, from a copy of `grid_process.rs` made by the
//! build script with recording calls put in. Form: `second --stages`.

use chart::{Body, MAX_BOXES, Refusal, Setting};
use render_stages::{DebugNode, RenderError, STAGES, internal::grid_process};
use triple_arena::{Arena, ptr_struct, traits::Ptr};

ptr_struct!(Node());

fn arena(bodies: &[Body]) -> Arena<Node, DebugNode<Node>> {
    let text = |bytes: &[u8]| String::from_utf8_lossy(bytes).into_owned();
    let ends = |ends: &[chart::End]| {
        ends.iter()
            .map(|end| (Node::from_number(end.target.into()), text(&end.text)))
            .collect()
    };
    let mut arena = Arena::new();
    for body in bodies {
        arena.insert(DebugNode::new(
            ends(&body.sources),
            body.lines.iter().map(|line| text(line)).collect(),
            ends(&body.sinks),
        ));
    }
    arena
}

fn stages(chart: &[u8]) -> String {
    let bodies = match chart::read(chart::listed(chart)) {
        Ok(bodies) => bodies,
        Err(refusal) => return refusal.line(),
    };
    STAGES.take();
    match grid_process(&arena(&bodies), true) {
        // the completed graph is there, and not cut
        Ok(grid) if grid.dag.len() > MAX_BOXES => {
            format!("{}\n{}", STAGES.take()[0], Refusal(13, 0).line())
        }
        Ok(grid) => {
            let cuts = (grid.dag.len() - bodies.len()) / 2;
            let before = format!("cut {}", grid.dag.len());
            let mut out = String::new();
            for line in STAGES.take() {
                out += &match line.strip_prefix(&before) {
                    Some(rest) => format!("{before} {cuts}{rest}"),
                    None => line,
                };
                out += "\n";
            }
            out
        }
        Err(RenderError::InvalidPtr(p)) => Refusal(12, p.inx() as u64).line(),
        Err(e) => panic!("{e:?}"),
    }
}

fn main() {
    let batch = std::env::args().skip(1).any(|arg| arg == "--batch");
    chart::serve(batch, Setting::Strict, |asking| {
        chart::strict_only(asking).map(stages)
    });
}
