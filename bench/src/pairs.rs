
/// For bench/search, put after second.rs: the boxes and pairs of a chart that is drawn.
pub fn pairs(bodies: &[Body]) -> Option<(usize, usize)> {
    let mut nodes = given(bodies);
    complete(&mut nodes);
    join(&mut nodes).ok()?;
    let (nodes, _) = cut(nodes).ok()?;
    Some((nodes.len(), weights(&nodes).pairs.len()))
}
