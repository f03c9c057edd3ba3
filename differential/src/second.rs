//! A second reading: document 01's modules 2 to 9 over plain vectors, written
//! from the document's words and not from the Rust's code (the sizes of module
//! 8 excepted, which the document takes from `RenderNode::new` and
//! `RenderGrid::new`), and the leads to nothing and the owners from document 02's
//! words (L5, L6). It shares the chart reader with the oracle, nothing else.

use std::collections::BTreeMap;

use chart::{Asked, Asking, Body, MAX_BOXES, MAX_POSITION, Refusal, Setting};

/// The owner of a lead's box.
const NONE: usize = 255;

#[derive(Clone)]
struct Source {
    target: usize,
    mark: Option<usize>,
    text: Vec<u8>,
}

#[derive(Clone)]
struct Sink {
    target: usize,
    text: Vec<u8>,
}

#[derive(Clone, Default)]
struct Node {
    sources: Vec<Source>,
    lines: Vec<Vec<u8>>,
    sinks: Vec<Sink>,
    owner: usize,
}

impl Node {
    /// Targets of all sources, then of all sinks.
    fn incidents(&self) -> Vec<usize> {
        let sources = self.sources.iter().map(|s| s.target);
        sources.chain(self.sinks.iter().map(|s| s.target)).collect()
    }
}

/// Refusal 12: nodes rising, sinks before sources.
fn targets(bodies: &[Body]) -> Result<(), Refusal> {
    for body in bodies {
        for end in body.sinks.iter().chain(&body.sources) {
            if usize::from(end.target) >= bodies.len() {
                return Err(Refusal(12, end.target.into()));
            }
        }
    }
    Ok(())
}

fn given(bodies: &[Body]) -> Vec<Node> {
    let node = |(k, body): (usize, &Body)| Node {
        sources: (body.sources.iter())
            .map(|end| Source {
                target: end.target.into(),
                mark: None,
                text: end.text.clone(),
            })
            .collect(),
        lines: body.lines.clone(),
        sinks: (body.sinks.iter())
            .map(|end| Sink {
                target: end.target.into(),
                text: end.text.clone(),
            })
            .collect(),
        owner: k,
    };
    bodies.iter().enumerate().map(node).collect()
}

/// Module 2. An end that leads to no node is passed over.
fn complete(nodes: &mut [Node]) {
    let n = nodes.len();
    for p in 0..n {
        for i in 0..nodes[p].sinks.len() {
            let q = nodes[p].sinks[i].target;
            if q >= n {
                continue;
            }
            let there = |s: &Source| s.target == p && s.mark == Some(i);
            if !nodes[q].sources.iter().any(there) {
                nodes[q].sources.push(Source {
                    target: p,
                    mark: Some(i),
                    text: vec![],
                });
            }
        }
        for j in 0..nodes[p].sources.len() {
            let q = nodes[p].sources[j].target;
            if q >= n {
                continue;
            }
            if !nodes[q].sinks.iter().any(|s| s.target == p) {
                nodes[p].sources[j].mark = Some(nodes[q].sinks.len());
                nodes[q].sinks.push(Sink {
                    target: p,
                    text: vec![],
                });
            }
        }
    }
}

/// Document 02, L5: each lead to nothing gets a box of its own, or 13.
fn join(nodes: &mut Vec<Node>) -> Result<(), Refusal> {
    let n = nodes.len();
    let lines = |target: usize| vec![format!("#{target}(invalid)").into_bytes()];
    for p in 0..n {
        for i in 0..nodes[p].sinks.len() {
            let target = nodes[p].sinks[i].target;
            if target >= n {
                nodes[p].sinks[i].target = nodes.len();
                nodes.push(Node {
                    sources: vec![Source {
                        target: p,
                        mark: Some(i),
                        text: vec![],
                    }],
                    lines: lines(target),
                    sinks: vec![],
                    owner: NONE,
                });
            }
        }
        for j in 0..nodes[p].sources.len() {
            let target = nodes[p].sources[j].target;
            if target >= n {
                nodes[p].sources[j].target = nodes.len();
                nodes.push(Node {
                    sources: vec![],
                    lines: lines(target),
                    sinks: vec![Sink {
                        target: p,
                        text: vec![],
                    }],
                    owner: NONE,
                });
            }
        }
    }
    if nodes.len() > MAX_BOXES {
        return Err(Refusal(13, 0));
    }
    Ok(())
}

/// Module 3.
struct Cutting {
    nodes: Vec<Node>,
    marked: Vec<bool>,
    explored: Vec<bool>,
    path: Vec<usize>,
    cuts: usize,
}

impl Cutting {
    fn mark(&mut self, p: usize) {
        self.marked[p] = true;
        for i in 0..self.nodes[p].sinks.len() {
            let q = self.nodes[p].sinks[i].target;
            if !self.marked[q] {
                self.mark(q);
            }
        }
    }

    fn walk(&mut self, c: usize) -> Result<(), Refusal> {
        self.path.push(c);
        let mut s = 0;
        while s < self.nodes[c].sinks.len() {
            let q = self.nodes[c].sinks[s].target;
            if self.path.contains(&q) {
                self.cut(c, s, q)?;
                continue;
            }
            if !self.marked[q] && !self.explored[q] {
                self.walk(q)?;
            }
            s += 1;
        }
        self.path.pop();
        self.explored[c] = true;
        Ok(())
    }

    fn cut(&mut self, c: usize, s: usize, q: usize) -> Result<(), Refusal> {
        if self.nodes.len() + 2 > MAX_BOXES {
            return Err(Refusal(13, 0));
        }
        let first = self.nodes.len();
        let second = first + 1;
        let line = format!("#{q}").into_bytes();
        self.nodes.push(Node {
            sources: vec![Source {
                target: c,
                mark: Some(s),
                text: vec![],
            }],
            lines: vec![line.clone()],
            sinks: vec![],
            owner: q,
        });
        self.nodes[c].sinks[s].target = first;
        self.nodes.push(Node {
            sources: vec![],
            lines: vec![line],
            sinks: vec![Sink {
                target: q,
                text: vec![],
            }],
            owner: q,
        });
        for source in &mut self.nodes[q].sources {
            if source.target == c {
                source.target = second;
                source.mark = Some(0);
            }
        }
        self.marked.extend([false; 2]);
        self.explored.extend([false; 2]);
        self.cuts += 1;
        Ok(())
    }
}

fn cut(nodes: Vec<Node>) -> Result<(Vec<Node>, usize), Refusal> {
    let n = nodes.len();
    let mut cutting = Cutting {
        nodes,
        marked: vec![false; n],
        explored: vec![false; n],
        path: vec![],
        cuts: 0,
    };
    for p in 0..n {
        if cutting.nodes[p].sources.is_empty() && !cutting.marked[p] {
            cutting.mark(p);
        }
    }
    for p in 0..n {
        if !cutting.marked[p] && !cutting.explored[p] {
            cutting.walk(p)?;
        }
    }
    Ok((cutting.nodes, cutting.cuts))
}

/// Every neighbour pair and node pair with its side: (earlier, later, reversed).
fn relations(nodes: &[Node]) -> Vec<(usize, usize, bool)> {
    let mut pairs = vec![];
    for (p, node) in nodes.iter().enumerate() {
        let sources: Vec<_> = node.sources.iter().map(|s| s.target).collect();
        let sinks: Vec<_> = node.sinks.iter().map(|s| s.target).collect();
        for (list, is_sinks) in [(sources, false), (sinks, true)] {
            for w in list.windows(2) {
                pairs.push((w[0], w[1], false));
            }
            for (i, q) in list.iter().enumerate() {
                let half = list.len() / 2;
                let reversed = if is_sinks { i >= half } else { i > half };
                pairs.push((p, *q, reversed));
            }
        }
    }
    pairs
}

/// A pair of nodes, smaller first.
#[derive(Clone, Copy)]
struct Pair {
    a: usize,
    b: usize,
    before: u64,
    after: u64,
    flag: bool,
}

/// The pairs in order of insertion.
#[derive(Default)]
struct Weights {
    pairs: Vec<Pair>,
    places: BTreeMap<(usize, usize), usize>,
}

impl Weights {
    fn add(&mut self, pair: Pair, make: bool) {
        match self.places.get(&(pair.a, pair.b)) {
            Some(i) => {
                self.pairs[*i].before += pair.before;
                self.pairs[*i].after += pair.after;
            }
            None if make => {
                self.places.insert((pair.a, pair.b), self.pairs.len());
                self.pairs.push(pair);
            }
            None => {}
        }
    }
}

/// Module 4.
fn weights(nodes: &[Node]) -> Weights {
    let mut weights = Weights::default();
    for (x, y, reversed) in relations(nodes) {
        if x != y {
            let rising = (x < y) != reversed;
            weights.add(
                Pair {
                    a: x.min(y),
                    b: x.max(y),
                    before: rising.into(),
                    after: (!rising).into(),
                    flag: true,
                },
                true,
            );
        }
    }
    for _ in 0..2 {
        let began = weights.pairs.clone();
        for ab in &began {
            let mut region: Vec<_> = began.iter().filter(|bc| bc.a == ab.b).collect();
            region.sort_by_key(|bc| bc.b);
            for bc in region {
                let sum = Pair {
                    a: ab.a,
                    b: bc.b,
                    before: ab.before + bc.before,
                    after: ab.after + bc.after,
                    flag: false,
                };
                weights.add(sum, ab.flag && bc.flag);
            }
        }
    }
    weights
}

/// Module 5: each node's first column.
fn first_columns(nodes: &[Node]) -> Vec<usize> {
    let weights = weights(nodes);
    let mut triples = vec![];
    for (x, y, _) in relations(nodes) {
        let (a, b) = (x.min(y), x.max(y));
        triples.push(match weights.places.get(&(a, b)) {
            None => (0, a, b),
            Some(i) => {
                let pair = weights.pairs[*i];
                let least = pair.before.min(pair.after);
                if pair.before < pair.after {
                    (least, b, a)
                } else {
                    (least, a, b)
                }
            }
        });
    }
    triples.sort();
    let mut chains: Vec<Vec<usize>> = (0..nodes.len()).map(|p| vec![p]).collect();
    for (_, first, second) in triples {
        let of = |p: usize| chains.iter().position(|chain| chain.contains(&p));
        let (i, j) = (of(first).unwrap(), of(second).unwrap());
        if i != j {
            let tail = std::mem::take(&mut chains[j]);
            chains[i].extend(tail);
        }
    }
    chains.retain(|chain| !chain.is_empty());
    chains.sort_by(|a, b| (b.len(), b).cmp(&(a.len(), a)));
    let mut columns = vec![0; nodes.len()];
    for (i, p) in chains.concat().into_iter().enumerate() {
        columns[p] = 2 * i;
    }
    columns
}

/// Module 6.
fn heights(nodes: &[Node]) -> Vec<i64> {
    fn visit(nodes: &[Node], p: usize, row: i64, seen: &mut [Option<i64>]) {
        seen[p] = Some(row);
        let sources = nodes[p].sources.iter().map(|s| (s.target, row - 1));
        let sinks = nodes[p].sinks.iter().map(|s| (s.target, row + 1));
        for (q, row) in sources.chain(sinks) {
            if seen[q].is_none() {
                visit(nodes, q, row, seen);
            }
        }
    }
    let mut rows = vec![0; nodes.len()];
    let mut done = vec![false; nodes.len()];
    for p in 0..nodes.len() {
        if !done[p] {
            let mut seen = vec![None; nodes.len()];
            visit(nodes, p, 0, &mut seen);
            let least = *seen.iter().flatten().min().unwrap();
            for (q, row) in seen.iter().enumerate() {
                if let Some(row) = row {
                    rows[q] = row - least;
                    done[q] = true;
                }
            }
        }
    }
    rows
}

/// Module 7.
fn columns(nodes: &[Node], first: &[usize], rows: &[i64]) -> Vec<usize> {
    let count = nodes.len();
    let mut at: Vec<usize> = first.to_vec();
    let taken = |at: &[usize], row: i64, column: usize| {
        (0..count).any(|p| rows[p] == row && at[p] == column)
    };
    for p in 0..count {
        let incidents = nodes[p].incidents();
        if incidents.len() < 2 {
            continue;
        }
        let min = incidents.iter().map(|q| at[*q]).min().unwrap();
        let max = incidents.iter().map(|q| at[*q]).max().unwrap();
        let wanted = if min > at[p] + 2 {
            min + 1
        } else if min < at[p] && max + 2 < at[p] {
            max.saturating_sub(1)
        } else {
            continue;
        };
        if !taken(&at, rows[p], wanted) {
            at[p] = wanted;
        }
    }
    for _ in 0..8 {
        for start in [0, 1] {
            let largest = at.iter().copied().max().unwrap_or(0);
            let mut to = vec![0; largest + 3];
            let mut next = start;
            let mut x = start;
            while x <= largest {
                let collides =
                    |row: &i64| taken(&at, *row, x) && taken(&at, *row, x + 1);
                to[x] = next;
                if rows.iter().any(collides) {
                    next += 1;
                }
                to[x + 1] = next;
                next += 1;
                x += 2;
            }
            for column in &mut at {
                *column = to[*column];
            }
        }
        for p in 0..count {
            let incidents = nodes[p].incidents();
            let sum: usize = incidents.iter().map(|q| at[*q]).sum();
            let mean = sum.checked_div(incidents.len()).unwrap_or(0);
            let row = || (0..count).filter(|q| rows[*q] == rows[p]).map(|q| at[q]);
            let low = row().filter(|c| *c < at[p]).max().map_or(0, |c| c + 1);
            let high = row().filter(|c| *c > at[p]).min().map_or(at[p], |c| c - 1);
            at[p] = mean.max(low).min(high);
        }
    }
    at
}

type Label = (i64, i64, i64, i64, Vec<u8>);

/// A box and its points, from its own top left.
struct Sized {
    width: i64,
    height: i64,
    labels: Vec<Label>,
    inputs: Vec<(i64, i64)>,
    outputs: Vec<(i64, i64)>,
}

/// Places of entries of these lengths along a side with `inner` to fill.
fn spread(lengths: &[usize], inner: i64) -> Vec<i64> {
    let used: i64 = lengths.iter().map(|l| 128 * *l as i64).sum();
    let space = inner - used;
    let k = lengths.len() as i64;
    let step = if k < 2 { space / 2 } else { space / (k - 1) };
    let mut x = if k == 1 { 128 + step } else { 128 };
    let mut places = vec![];
    for length in lengths {
        places.push(x);
        x += 128 * *length as i64 + step;
    }
    places
}

/// Module 8, one box.
fn size(node: &Node) -> Sized {
    let sources: Vec<_> = node.sources.iter().map(|s| s.text.len()).collect();
    let sinks: Vec<_> = node.sinks.iter().map(|s| s.text.len()).collect();
    let longest = node.lines.iter().map(Vec::len).max().unwrap_or(0) as i64;
    let widest = [
        128 * sources.iter().sum::<usize>() as i64,
        128 * sinks.iter().sum::<usize>() as i64,
        256 * longest,
    ];
    let inner = widest.into_iter().max().unwrap() + 128;
    let bare = inner == 128;
    let mut labels = vec![];

    let top = if bare { 128 } else { 0 };
    let mut inputs = vec![];
    for (source, x) in node.sources.iter().zip(spread(&sources, inner)) {
        let width = 128 * source.text.len() as i64;
        if width > 0 {
            labels.push((x, top + 208, 232, width, source.text.clone()));
        }
        inputs.push((x + width / 2, top));
    }
    let mut y = top + 128;
    if sources.iter().any(|l| *l > 0) {
        y += 256;
    }
    for (i, line) in node.lines.iter().enumerate() {
        y += if i == 0 { 512 } else { 640 };
        let x = 128 + (inner - 256 * longest) / 2;
        labels.push((x, y - 192, 464, 256 * line.len() as i64, line.clone()));
    }
    if sinks.iter().any(|l| *l > 0) {
        y += 256;
    }
    let mut outputs = vec![];
    for (sink, x) in node.sinks.iter().zip(spread(&sinks, inner)) {
        let width = 128 * sink.text.len() as i64;
        if width > 0 {
            labels.push((x, y - 48, 232, width, sink.text.clone()));
        }
        outputs.push((x + width / 2, y));
    }
    Sized {
        width: inner + 256,
        height: if bare { y + 128 } else { y },
        labels,
        inputs,
        outputs,
    }
}

/// Where each column (or row) begins, and the total.
fn lay(sizes: &[i64], gap: i64) -> (Vec<i64>, i64) {
    let mut starts = vec![];
    let mut place = 128;
    for size in sizes {
        starts.push(place);
        place += size + gap;
    }
    (starts, place - gap + 128)
}

struct Layout {
    nodes: Vec<Node>,
    cuts: usize,
    first: Vec<usize>,
    rows: Vec<i64>,
    columns: Vec<usize>,
}

/// Modules 1 and 2, and refusals 1 to 12.
fn completed(chart: &[u8], setting: Setting) -> Result<Vec<Node>, Refusal> {
    let bodies = chart::read(chart)?;
    if setting == Setting::Strict {
        targets(&bodies)?;
    }
    let mut nodes = given(&bodies);
    complete(&mut nodes);
    Ok(nodes)
}

/// Modules 1 to 7, and refusals 1 to 13.
fn layout(chart: &[u8], setting: Setting) -> Result<Layout, Refusal> {
    let mut nodes = completed(chart, setting)?;
    join(&mut nodes)?;
    let (nodes, cuts) = cut(nodes)?;
    let first = first_columns(&nodes);
    let rows = heights(&nodes);
    let columns = columns(&nodes, &first, &rows);
    Ok(Layout {
        nodes,
        cuts,
        first,
        rows,
        columns,
    })
}

fn listing(asking: &Asking, asked: Asked) -> String {
    let laid = layout(chart::listed(&asking.chart), asking.setting);
    match laid.and_then(|l| sheet(&l, asked)) {
        Ok(text) => text,
        Err(refusal) => refusal.line(),
    }
}

/// What each curve joins: the node it comes from and the sink there, the node
/// it goes to and the source there.
fn joined(nodes: &[Node]) -> Vec<(usize, usize, usize, usize)> {
    let mut found = vec![];
    for (k, node) in nodes.iter().enumerate() {
        for (p, source) in node.sources.iter().enumerate() {
            let c = source.target;
            let leads = || nodes[c].sinks.iter().position(|s| s.target == k);
            if let Some(i) = source.mark.or_else(leads) {
                found.push((c, i, k, p));
            }
        }
    }
    found
}

/// Modules 8 and 9.
fn sheet(layout: &Layout, asked: Asked) -> Result<String, Refusal> {
    let Layout {
        nodes,
        rows,
        columns,
        ..
    } = layout;
    let sized: Vec<_> = nodes.iter().map(size).collect();
    let mut widths = vec![0; columns.iter().max().map_or(1, |c| c + 1)];
    let mut tall = vec![0; rows.iter().max().map_or(1, |r| *r as usize + 1)];
    for (k, one) in sized.iter().enumerate() {
        let (c, r) = (columns[k], rows[k] as usize);
        widths[c] = one.width.max(widths[c]);
        tall[r] = one.height.max(tall[r]);
    }
    let (lefts, width) = lay(&widths, 1024);
    let (tops, height) = lay(&tall, 2048);
    let (ox, oy) = (i64::from(asked.x), i64::from(asked.y));
    if width + ox > MAX_POSITION as i64 || height + oy > MAX_POSITION as i64 {
        return Err(Refusal(14, 0));
    }
    let corner = |k: usize| (lefts[columns[k]], tops[rows[k] as usize]);
    let count = nodes.len();
    let mut out = format!(
        "sheet {} {} {width} {height} {count} {}\n",
        widths.len(),
        tall.len(),
        layout.cuts
    );
    for (k, one) in sized.iter().enumerate() {
        let (x, y) = corner(k);
        out += &format!(
            "box {k} {} {} {x} {y} {} {}\n",
            columns[k], rows[k], one.width, one.height
        );
    }
    let mut words = vec!["path".to_string()];
    for (k, one) in sized.iter().enumerate() {
        let (x, y) = corner(k);
        let (x, y) = (x + ox, y + oy);
        let (right, bottom) = (x + one.width, y + one.height);
        words.push(format!(
            "M {x} {y} L {right} {y} L {right} {bottom} L {x} {bottom} Z"
        ));
    }
    let point = |k: usize, p: (i64, i64)| (corner(k).0 + p.0, corner(k).1 + p.1);
    let mut curves = String::new();
    for (j, (c, i, k, p)) in joined(nodes).into_iter().enumerate() {
        let (ax, ay) = point(c, sized[c].outputs[i]);
        let (bx, by) = point(k, sized[k].inputs[p]);
        curves += &format!("curve {j} {ax} {ay} {bx} {by}\n");
        let (ax, ay, bx, by) = (ax + ox, ay + oy, bx + ox, by + oy);
        let half = (ay + by) / 2;
        let dot = if (ay + by) % 2 == 1 { ".5" } else { "" };
        words.push(format!(
            "M {ax} {ay} C {ax} {half}{dot} {bx} {half}{dot} {bx} {by}"
        ));
    }
    out += &words.join(" ");
    out += "\n";
    if asked.full {
        let owners: Vec<_> = nodes.iter().map(|node| node.owner).collect();
        out += &format!("owners{}\n", numbers(&owners));
        for (k, one) in sized.iter().enumerate() {
            for (i, (lx, ly, size, width, text)) in one.labels.iter().enumerate() {
                let (x, y) = point(k, (*lx, *ly));
                let text = String::from_utf8_lossy(text).replace(char::from(chart::SIGN), "°");
                out += &format!("text {k} {i} {x} {y} {size} {width} {text}\n");
            }
        }
        out += &curves;
    }
    if asked.points {
        for (k, node) in nodes.iter().enumerate() {
            for (i, input) in sized[k].inputs.iter().enumerate() {
                let (x, y) = point(k, *input);
                let Source { target, mark, .. } = &node.sources[i];
                let mark = mark.map_or("-".to_string(), |m| m.to_string());
                out += &format!("in {k} {i} {x} {y} {target} {mark}\n");
            }
            for (i, output) in sized[k].outputs.iter().enumerate() {
                let (x, y) = point(k, *output);
                out += &format!("out {k} {i} {x} {y} {}\n", node.sinks[i].target);
            }
        }
    }
    Ok(out)
}

fn graph_text(nodes: &[Node]) -> String {
    let mut out = String::new();
    for (k, node) in nodes.iter().enumerate() {
        out += &format!(" | {k} src");
        for source in &node.sources {
            let mark = source.mark.map_or("-".to_string(), |m| m.to_string());
            out += &format!(" {}:{mark}", source.target);
        }
        out += " snk";
        for sink in &node.sinks {
            out += &format!(" {}", sink.target);
        }
    }
    out
}

fn numbers<T: ToString>(list: &[T]) -> String {
    list.iter().map(|n| format!(" {}", n.to_string())).collect()
}

fn stages(chart: &[u8]) -> String {
    let chart = chart::listed(chart);
    let begun = match completed(chart, Setting::Strict) {
        Err(refusal) => return refusal.line(),
        Ok(nodes) => format!("completed {}{}\n", nodes.len(), graph_text(&nodes)),
    };
    match layout(chart, Setting::Strict) {
        Err(refusal) => begun + &refusal.line(),
        Ok(l) => format!(
            "{begun}cut {} {}{}\nfirst{}\nheights{}\ncolumns{}\n",
            l.nodes.len(),
            l.cuts,
            graph_text(&l.nodes),
            numbers(&l.first),
            numbers(&l.rows),
            numbers(&l.columns)
        ),
    }
}

/// Refusals 17 to 19 on a path text, or its count of segments.
fn segments(text: &[u8]) -> Result<usize, Refusal> {
    let broken = |place: usize| Err(Refusal(17, place as u64));
    let mut large = None;
    let mut count = 0;
    let mut at = 0;
    while at < text.len() || count > 0 {
        if count > 0 {
            if at == text.len() {
                break;
            }
            if text[at] != b' ' {
                return broken(at);
            }
            at += 1;
        }
        let wanted = match text.get(at) {
            Some(b'M' | b'L') => 2,
            Some(b'C') => 6,
            Some(b'Z') => 0,
            _ => return broken(at),
        };
        at += 1;
        for _ in 0..wanted {
            if text.get(at) != Some(&b' ') {
                return broken(at);
            }
            at += 1;
            let start = at;
            while text.get(at).is_some_and(u8::is_ascii_digit) && (at == start || text[start] != b'0')
            {
                at += 1;
            }
            if at == start {
                return broken(at);
            }
            let digits = std::str::from_utf8(&text[start..at]).unwrap();
            let mut half = false;
            if text.get(at) == Some(&b'.') {
                if text.get(at + 1) != Some(&b'5') {
                    return broken(at + 1);
                }
                half = true;
                at += 2;
            }
            let most = MAX_POSITION - u64::from(half);
            if digits.len() > 7 || digits.parse::<u64>().unwrap() > most {
                large = large.or(Some(start));
            }
        }
        count += 1;
    }
    if let Some(place) = large {
        return Err(Refusal(18, place as u64));
    }
    if matches!(text.first(), Some(b'L' | b'C' | b'Z')) {
        return Err(Refusal(19, 0));
    }
    Ok(count)
}

/// A path text read and written again into a buffer of `room` bytes.
fn reading(text: &[u8], room: Option<usize>) -> String {
    match (segments(text), room) {
        (Err(refusal), _) => refusal.line(),
        (Ok(_), Some(room)) if room < text.len() => Refusal(16, text.len() as u64).line(),
        (Ok(_), Some(_)) => format!("written {}\n", text.len()),
        (Ok(count), None) => format!("segments {count}\n"),
    }
}

const USAGE: &str =
    "second [--batch | --default] [--full] [--points] [--x N] [--y N] [--stages] < charts
second --path-text [--buffer N] < text
  one binary chart on standard input, or with --batch hex lines; it is strict,
  or with --default (a line: with D before the digits) leads to nothing are drawn
  --full       every box's owner and texts and the ends of every curve too
  --points     every box's input points and output points too
  --stages     instead of the listing, the stages of the layout (strict only)
  --path-text  a path text on standard input: its count of segments, or its
               refusal; with --buffer read and written again into N bytes";

fn main() {
    let mut asked = Asked::default();
    let (mut batch, mut by_stage, mut path_text, mut room) = (false, false, false, None);
    let mut drawn = false;
    let mut args = std::env::args().skip(1);
    while let Some(arg) = args.next() {
        let mut number = || args.next().and_then(|n| n.parse::<u32>().ok());
        let known = match arg.as_str() {
            "--x" => number().map(|n| asked.x = n).is_some(),
            "--y" => number().map(|n| asked.y = n).is_some(),
            "--buffer" => number().map(|n| room = Some(n as usize)).is_some(),
            flag => {
                let flag = match flag {
                    "--batch" => Some(&mut batch),
                    "--default" => Some(&mut drawn),
                    "--full" => Some(&mut asked.full),
                    "--points" => Some(&mut asked.points),
                    "--stages" => Some(&mut by_stage),
                    "--path-text" => Some(&mut path_text),
                    _ => None,
                };
                flag.map(|flag| *flag = true).is_some()
            }
        };
        if !known || (batch && drawn) {
            eprintln!("{USAGE}");
            std::process::exit(2);
        }
    }
    let setting = if drawn {
        Setting::Default
    } else {
        Setting::Strict
    };
    if path_text {
        print!("{}", reading(&chart::whole_input(), room));
    } else if by_stage {
        chart::serve(batch, setting, |asking| {
            chart::strict_only(asking).map(stages)
        });
    } else {
        chart::serve(batch, setting, |asking| Ok(listing(asking, asked)));
    }
}
