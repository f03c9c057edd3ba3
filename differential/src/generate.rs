//! Charts from a seed. Chart i of a seed is the same whatever the count is.

use chart::{Body, End, MAX_EDGES, MAX_LENGTH, MAX_LINES, MAX_NODES, SIGN};

/// SplitMix64.
pub struct Random(u64);

impl Random {
    pub fn new(seed: u64, index: u64) -> Self {
        let mut random = Self(seed ^ 0x5851_f42d_4c95_7f2d);
        let mixed = random.next() ^ index.wrapping_mul(0xd134_2543_de82_ef95);
        random.0 = mixed;
        random.next();
        random
    }

    pub fn next(&mut self) -> u64 {
        self.0 = self.0.wrapping_add(0x9e37_79b9_7f4a_7c15);
        let mut z = self.0;
        z = (z ^ (z >> 30)).wrapping_mul(0xbf58_476d_1ce4_e5b9);
        z = (z ^ (z >> 27)).wrapping_mul(0x94d0_49bb_1331_11eb);
        z ^ (z >> 31)
    }

    /// 0 to n - 1.
    pub fn below(&mut self, n: usize) -> usize {
        (self.next() % n as u64) as usize
    }

    /// From low to high, both possible.
    pub fn among(&mut self, low: usize, high: usize) -> usize {
        low + self.below(high - low + 1)
    }

    pub fn chance(&mut self, one_in: usize) -> bool {
        self.below(one_in) == 0
    }

    fn shuffle<T>(&mut self, list: &mut [T]) {
        for i in (1..list.len()).rev() {
            list.swap(i, self.below(i + 1));
        }
    }
}

/// Nodes and directed edges.
struct Graph {
    n: usize,
    edges: Vec<(usize, usize)>,
}

fn ring(edges: &mut Vec<(usize, usize)>, nodes: &[usize]) {
    for i in 0..nodes.len() {
        edges.push((nodes[i], nodes[(i + 1) % nodes.len()]));
    }
}

fn random_edges(r: &mut Random, n: usize, count: usize) -> Vec<(usize, usize)> {
    (0..count).map(|_| (r.below(n), r.below(n))).collect()
}

/// The names of the shapes, in the order of `graph`.
pub const SHAPES: [&str; 16] = [
    "small", "sparse", "dense", "chain", "star", "tree", "ring", "rooted", "loops", "twocycles",
    "parts", "layers", "limits", "parallel", "acyclic", "lone",
];

fn graph(r: &mut Random, shape: usize) -> Graph {
    let mut edges = vec![];
    let mut n = r.among(1, MAX_NODES);
    match SHAPES[shape] {
        "small" => {
            n = r.among(1, 4);
            let count = r.among(0, 7);
            edges = random_edges(r, n, count);
        }
        "sparse" => {
            let count = r.among(0, n);
            edges = random_edges(r, n, count);
        }
        "dense" => {
            n = r.among(2, 10);
            let count = r.among(n, 5 * n + 14);
            edges = random_edges(r, n, count);
        }
        "chain" => edges = (1..n).map(|i| (i - 1, i)).collect(),
        "star" => {
            let outwards = r.below(3);
            for i in 1..n {
                let out = outwards == 0 || (outwards == 2 && r.chance(2));
                edges.push(if out { (0, i) } else { (i, 0) });
            }
        }
        "tree" => {
            let downwards = r.chance(2);
            for i in 1..n {
                let parent = r.below(i);
                edges.push(if downwards { (parent, i) } else { (i, parent) });
            }
        }
        "ring" => {
            ring(&mut edges, &(0..n).collect::<Vec<_>>());
            let chords = r.below(4);
            edges.extend(random_edges(r, n, chords));
        }
        "rooted" => {
            n = r.among(3, MAX_NODES);
            let roots = r.among(1, 3.min(n - 2));
            ring(&mut edges, &(roots..n).collect::<Vec<_>>());
            for root in 0..roots {
                edges.push((root, r.among(roots, n - 1)));
            }
            if r.chance(2) {
                let more = r.among(1, 5);
                for (a, b) in random_edges(r, n - roots, more) {
                    edges.push((a + roots, b + roots));
                }
            }
        }
        "loops" => {
            n = r.among(1, 8);
            for _ in 0..r.among(1, 26) {
                let a = r.below(n);
                edges.push((a, a));
            }
            let more = r.below(n + 1);
            edges.extend(random_edges(r, n, more));
        }
        "twocycles" => {
            n = r.among(2, 16);
            for _ in 0..r.among(1, 16) {
                let (a, b) = (r.below(n), r.below(n));
                edges.extend([(a, b), (b, a)]);
            }
        }
        "parts" => {
            let mut start = 0;
            while start < n {
                let end = r.among(start + 1, n.min(start + 8));
                let part: Vec<_> = (start..end).collect();
                match r.below(4) {
                    0 => ring(&mut edges, &part),
                    1 => edges.extend(part.windows(2).map(|w| (w[0], w[1]))),
                    2 => {
                        let count = r.among(0, part.len() + 1);
                        for (a, b) in random_edges(r, part.len(), count) {
                            edges.push((a + start, b + start));
                        }
                    }
                    _ => edges.extend(part[1..].iter().map(|b| (start, *b))),
                }
                start = end;
            }
        }
        "layers" => {
            let layers = r.among(1, 6);
            let count = r.among(0, 2 * n);
            for (a, b) in random_edges(r, n, count) {
                if b % layers != 0 {
                    let from = a - a % layers + (b % layers - 1);
                    edges.push((from.min(n - 1), b));
                }
            }
        }
        "limits" => match r.below(6) {
            // near 48 boxes by loops alone
            0 => {
                n = r.among(1, MAX_NODES);
                let cuts = ((48 - n) / 2 + 1).min(64);
                let cuts = r.among(cuts.saturating_sub(2), cuts);
                for _ in 0..cuts {
                    let a = r.below(n);
                    edges.push((a, a));
                }
            }
            // near 48 boxes by two-cycles
            1 => {
                n = r.among(2, MAX_NODES);
                for _ in 0..((48 - n) / 2 + r.below(2)).min(31) {
                    let a = r.below(n);
                    let b = (a + 1 + r.below(n - 1)) % n;
                    edges.extend([(a, b), (b, a)]);
                }
            }
            // 32 nodes
            2 => {
                n = MAX_NODES;
                let count = r.among(24, MAX_EDGES);
                edges = random_edges(r, n, count);
            }
            // 64 edges
            3 => edges = random_edges(r, n, MAX_EDGES),
            // 32 nodes and 64 edges with no cycle
            4 => {
                n = MAX_NODES;
                edges = random_edges(r, n, MAX_EDGES);
                edges.retain(|(a, b)| a != b);
                for (a, b) in &mut edges {
                    (*a, *b) = ((*a).min(*b), (*a).max(*b));
                }
            }
            _ => {
                n = MAX_NODES;
                ring(&mut edges, &(0..n).collect::<Vec<_>>());
                edges.extend(random_edges(r, n, 12));
            }
        },
        "parallel" => {
            n = r.among(2, 6);
            for _ in 0..r.among(1, 5) {
                let (a, b) = (r.below(n), r.below(n));
                for _ in 0..r.among(1, 6) {
                    edges.push((a, b));
                }
            }
        }
        "acyclic" => {
            n = r.among(2, MAX_NODES);
            let count = r.among(0, 2 * n);
            for (a, b) in random_edges(r, n, count) {
                if a != b {
                    edges.push((a.min(b), a.max(b)));
                }
            }
        }
        _ => {
            n = r.among(0, MAX_NODES);
            if n > 0 && r.chance(2) {
                edges = random_edges(r, n, 1);
            }
        }
    }
    Graph { n, edges }
}

/// A text of the style: 0 none, 1 short, 2 long, 3 any, 4 the longest.
fn text(r: &mut Random, style: usize) -> Vec<u8> {
    let length = match style {
        0 => 0,
        1 => r.below(4),
        2 => MAX_LENGTH - r.below(2),
        3 => r.among(0, MAX_LENGTH),
        _ => MAX_LENGTH,
    };
    (0..length).map(|_| r.among(32, 126) as u8).collect()
}

/// A chart that document 01 reads (it may still be refused by 13).
pub fn sound(r: &mut Random) -> Vec<Body> {
    let shape = r.below(SHAPES.len());
    let mut graph = graph(r, shape);
    let mut names: Vec<_> = (0..graph.n).collect();
    if r.chance(2) {
        r.shuffle(&mut names);
    }
    if r.chance(2) {
        r.shuffle(&mut graph.edges);
    }
    // 0 at the source end (as sinks), 1 at the other, 2 at both, 3 any of these
    let given = [0, 0, 1, 2, 3, 3][r.below(6)];
    let mut edge_style = [0, 0, 1, 2, 3][r.below(5)];
    let mut line_style = [0, 1, 2, 3][r.below(4)];
    let mut lines = [(0, 0), (0, 0), (0, 1), (0, MAX_LINES)][r.below(4)];
    if SHAPES[shape] == "limits" && r.chance(8) {
        (edge_style, line_style, lines) = (4, 4, (MAX_LINES, MAX_LINES));
    }
    let mut bodies = vec![Body::default(); graph.n];
    let mut left = MAX_EDGES;
    for (a, b) in graph.edges {
        let (a, b) = (names[a], names[b]);
        let way = if given == 3 { r.below(3) } else { given };
        if left < if way == 2 { 2 } else { 1 } {
            break;
        }
        if way != 1 {
            left -= 1;
            let text = text(r, edge_style);
            bodies[a].sinks.push(End {
                target: b as u8,
                text,
            });
        }
        if way != 0 {
            left -= 1;
            let text = text(r, edge_style);
            bodies[b].sources.push(End {
                target: a as u8,
                text,
            });
        }
    }
    for body in &mut bodies {
        for _ in 0..r.among(lines.0, lines.1) {
            body.lines.push(text(r, line_style));
        }
        if given == 3 && r.chance(3) {
            r.shuffle(&mut body.sources);
            r.shuffle(&mut body.sinks);
        }
    }
    bodies
}

/// One end of one node, if there is any.
fn any_end<'a>(r: &mut Random, bodies: &'a mut [Body]) -> Option<&'a mut End> {
    let mut ends: Vec<_> = bodies
        .iter_mut()
        .flat_map(|body| body.sinks.iter_mut().chain(body.sources.iter_mut()))
        .collect();
    if ends.is_empty() {
        return None;
    }
    let i = r.below(ends.len());
    Some(ends.swap_remove(i))
}

fn any_text<'a>(r: &mut Random, bodies: &'a mut [Body]) -> Option<&'a mut Vec<u8>> {
    let mut texts: Vec<_> = bodies
        .iter_mut()
        .flat_map(|body| {
            let ends = body.sinks.iter_mut().chain(body.sources.iter_mut());
            ends.map(|end| &mut end.text).chain(body.lines.iter_mut())
        })
        .collect();
    if texts.is_empty() {
        return None;
    }
    let i = r.below(texts.len());
    Some(texts.swap_remove(i))
}

/// Damage to the bodies, before they are written.
fn damage_bodies(r: &mut Random, bodies: &mut Vec<Body>) {
    let n = bodies.len();
    match r.below(6) {
        // bad targets
        0 | 1 => {
            for _ in 0..r.among(1, 3) {
                let most = if r.chance(2) { n + 1 } else { 255 };
                if let Some(end) = any_end(r, bodies) {
                    end.target = r.among(n, most) as u8;
                }
            }
        }
        2 => {
            if let Some(text) = any_text(r, bodies) {
                text.resize(if r.chance(2) { 25 } else { r.among(25, 255) }, b'x');
            }
        }
        3 => {
            if let Some(text) = any_text(r, bodies) {
                let byte = [0, 9, 31, 127, 128, 255][r.below(6)];
                text.truncate(MAX_LENGTH - 1);
                text.insert(r.among(0, text.len()), byte);
            }
        }
        4 => {
            if n > 0 {
                let k = r.below(n);
                let lines = if r.chance(2) { 5 } else { r.among(5, 40) };
                bodies[k].lines.resize(lines, vec![]);
            }
        }
        // more than 64 edges
        _ => {
            if n > 0 {
                let wanted = r.among(MAX_EDGES + 1, MAX_EDGES + 3);
                while chart::edges(bodies) < wanted {
                    let target = if r.chance(20) { 200 } else { r.below(n) as u8 };
                    let k = r.below(n);
                    let ends = if r.chance(2) {
                        &mut bodies[k].sinks
                    } else {
                        &mut bodies[k].sources
                    };
                    ends.push(End {
                        target,
                        text: vec![],
                    });
                }
            }
        }
    }
}

/// Damage to the bytes of a chart.
fn damage_bytes(r: &mut Random, chart: &mut Vec<u8>) {
    let n = usize::from(chart.get(1).copied().unwrap_or(0));
    match r.below(10) {
        0 => chart.truncate(r.below(chart.len() + 1)),
        1 => chart.truncate(r.below((2 + 2 * n + 4).min(chart.len()) + 1)),
        2 | 3 if !chart.is_empty() => {
            let i = r.below(chart.len());
            chart[i] = r.below(256) as u8;
        }
        4 if !chart.is_empty() => {
            let i = r.below(chart.len());
            chart[i] = chart[i].wrapping_add(if r.chance(2) { 1 } else { 255 });
        }
        5 => {
            for _ in 0..r.among(1, 3) {
                chart.push(r.below(256) as u8);
            }
        }
        6 if !chart.is_empty() => chart[0] = [0, 2, 255][r.below(3)],
        7 if chart.len() > 1 => {
            chart[1] = [0, 1, 31, 32, 33, 34, 255, chart[1].wrapping_add(1)][r.below(8)]
        }
        // an entry one off, in its low or high byte
        8 if n > 0 && chart.len() >= 2 + 2 * n => {
            let i = 2 + r.below(2 * n);
            chart[i] = chart[i].wrapping_add(if r.chance(2) { 1 } else { 255 });
        }
        // a bad count, length or text byte that the chart ends with
        9 if chart.len() > 2 + 2 * n => {
            let i = r.among(2 + 2 * n, chart.len() - 1);
            chart[i] = [5, 25, 31, 127, 255][r.below(5)];
            chart.truncate(i + 1);
        }
        _ => {
            let i = r.among(0, chart.len());
            chart.insert(i, r.below(256) as u8);
        }
    }
}

/// A chart that is, most often, refused by 1 to 12.
pub fn damaged(r: &mut Random) -> Vec<u8> {
    if r.chance(12) {
        let length = r.below(14);
        let mut chart: Vec<u8> = (0..length).map(|_| r.below(8) as u8).collect();
        if length > 1 && r.chance(2) {
            chart[0] = 1;
        }
        return chart;
    }
    let mut bodies = sound(r);
    if r.chance(2) {
        bodies.truncate(r.among(0, 6));
        let n = bodies.len().max(1) as u8;
        for body in &mut bodies {
            for end in body.sources.iter_mut().chain(body.sinks.iter_mut()) {
                end.target %= n;
            }
        }
    }
    let kind = r.below(5);
    if kind < 2 || kind == 4 {
        damage_bodies(r, &mut bodies);
    }
    let mut chart = chart::write(&bodies);
    if kind >= 2 {
        damage_bytes(r, &mut chart);
        if r.chance(4) {
            damage_bytes(r, &mut chart);
        }
    }
    chart.truncate(chart::LISTING_BYTES);
    chart
}

/// Some letters of the texts become degree signs, of 24 bytes at most.
fn put_signs(r: &mut Random, bodies: &mut [Body]) {
    for body in bodies {
        let ends = body.sinks.iter_mut().chain(body.sources.iter_mut());
        for text in ends.map(|end| &mut end.text).chain(body.lines.iter_mut()) {
            for i in 0..text.len() {
                if r.chance(4) {
                    text[i] = SIGN;
                }
            }
            while chart::bytes(text).len() > MAX_LENGTH {
                text.pop();
            }
        }
    }
}

/// Damage to one byte of a degree sign, if there is any.
fn damage_signs(r: &mut Random, chart: &mut Vec<u8>) {
    let places: Vec<_> = (0..chart.len())
        .filter(|&i| [0xc2, 0xb0].contains(&chart[i]))
        .collect();
    if places.is_empty() {
        return;
    }
    let i = places[r.below(places.len())];
    match r.below(4) {
        0 => chart.truncate(i + r.below(2)),
        1 => chart[i] = [0xc2, 0xb0, 0xc3, 0xb1, b'x'][r.below(5)],
        // a letter becomes half a sign
        2 if i > 0 => chart[i - 1] = [0xc2, 0xb0][r.below(2)],
        _ => {
            chart.remove(i);
        }
    }
}

/// A text ends in C2: the chart may end there, or go on with B0.
fn end_in_half(r: &mut Random, bodies: &mut [Body]) -> Vec<u8> {
    let mut texts: Vec<_> = bodies
        .iter_mut()
        .flat_map(|body| {
            let ends = body.sources.iter_mut().chain(body.sinks.iter_mut());
            ends.map(|end| &mut end.text).chain(body.lines.iter_mut())
        })
        .filter(|text| !text.is_empty())
        .collect();
    if !texts.is_empty() {
        let chosen = r.below(texts.len());
        *texts[chosen].last_mut().unwrap() = 0xc2;
    }
    let mut chart = chart::write(bodies);
    let half = (0..chart.len()).rfind(|&i| chart[i] == 0xc2 && chart.get(i + 1) != Some(&0xb0));
    if let Some(i) = half {
        match r.below(3) {
            0 => chart.truncate(i + 1),
            1 if i + 1 < chart.len() => chart[i + 1] = 0xb0,
            _ => {}
        }
    }
    chart
}

/// A chart with degree signs; four in nine are damaged.
fn signed(r: &mut Random) -> Vec<u8> {
    let mut bodies = sound(r);
    put_signs(r, &mut bodies);
    let damage = r.below(9);
    if damage == 3 {
        return end_in_half(r, &mut bodies);
    }
    let mut chart = chart::write(&bodies);
    match damage {
        0 | 1 => damage_signs(r, &mut chart),
        2 => damage_bytes(r, &mut chart),
        _ => {}
    }
    chart
}

/// Targets of leads to nothing: all from n on.
struct Far {
    n: usize,
    /// 0 each of its own, 1 all one, 2 of two, 3 n, n + 1 and so on, 4 the numbers
    /// that the first inserted nodes have.
    style: usize,
    one: [usize; 2],
    next: usize,
}

impl Far {
    fn new(r: &mut Random, n: usize) -> Self {
        let mut far = Self {
            n,
            style: 0,
            one: [n; 2],
            next: n,
        };
        far.one = [far.target(r).into(), far.target(r).into()];
        far.style = r.below(5);
        far.next = n;
        far
    }

    fn target(&mut self, r: &mut Random) -> u8 {
        let n = self.n;
        let target = match self.style {
            0 => match r.below(8) {
                0 => n,
                1 => n + 1,
                2 | 3 => r.among(n, n + 15),
                4 => [9, 10, 99, 100, 254, 255][r.below(6)].max(n),
                5 => 255,
                _ => r.among(n, 255),
            },
            1 => self.one[0],
            2 => self.one[r.below(2)],
            3 => self.next,
            _ => r.among(n, n + 5),
        };
        self.next = if self.next < 255 { self.next + 1 } else { n };
        target as u8
    }
}

/// Puts a sink or a source at any place.
fn put_end(r: &mut Random, body: &mut Body, sink: bool, end: End) {
    let ends = if sink {
        &mut body.sinks
    } else {
        &mut body.sources
    };
    ends.insert(r.below(ends.len() + 1), end);
}

/// A lead to nothing more, a sink or a source of node k: `way` 0 a sink, 1 a
/// source, 2 any.
fn put_lead(r: &mut Random, bodies: &mut [Body], far: &mut Far, k: usize, way: usize, style: usize) {
    let target = far.target(r);
    let end = End {
        target,
        text: text(r, style),
    };
    let sink = way == 0 || (way == 2 && r.chance(2));
    put_end(r, &mut bodies[k], sink, end);
}

/// Some leads more, as far as 64 ends allow.
fn put_leads(r: &mut Random, bodies: &mut [Body], count: usize, nodes: usize, style: usize) {
    let mut far = Far::new(r, bodies.len());
    let way = r.below(4).min(2);
    let left = MAX_EDGES - chart::edges(bodies);
    for _ in 0..count.min(left) {
        let k = r.below(nodes);
        put_lead(r, bodies, &mut far, k, way, style);
    }
}

/// Charts at the limits: boxes near 48, or 64 ends. The cuts are self-loops.
fn lead_limits(r: &mut Random, style: usize) -> Vec<Body> {
    let (n, leads, loops) = match r.below(6) {
        // one node
        0 => (1, r.among(45, 49), 0),
        // 32 nodes
        1 => (MAX_NODES, r.among(14, 18), 0),
        // any count of nodes, with loops or without
        2 | 3 => {
            let n = r.among(1, MAX_NODES);
            let loops = if r.chance(3) { 0 } else { r.among(1, (46 - n) / 2) };
            let most = (48 - n - 2 * loops).min(MAX_EDGES - loops);
            (n, r.among(most.saturating_sub(2), most + 2), loops)
        }
        // few leads beside the cuts
        4 => {
            let n = r.among(1, MAX_NODES);
            let leads = r.among(1, 4);
            let loops = (48 - n - leads) / 2;
            (n, leads, r.among(loops.saturating_sub(1), loops + 1))
        }
        // 64 ends
        _ => {
            let n = r.among(1, MAX_NODES);
            let leads = r.among(1, 48 - n + 3);
            (n, leads, 0)
        }
    };
    let mut bodies = vec![Body::default(); n];
    for _ in 0..loops {
        let k = r.below(n);
        let end = End {
            target: k as u8,
            text: text(r, style),
        };
        bodies[k].sinks.push(end);
    }
    let nodes = if r.chance(3) { 1 } else { n };
    put_leads(r, &mut bodies, leads, nodes, style);
    if loops == 0 && r.chance(2) {
        // edges that rise, so that nothing is cut, up to 64 ends
        let mut left = MAX_EDGES - chart::edges(&bodies);
        if r.chance(2) {
            left = r.below(left + 1);
        }
        for _ in 0..if n > 1 { left } else { 0 } {
            let a = r.below(n - 1);
            let b = r.among(a + 1, n - 1);
            let (k, target) = if r.chance(2) { (a, b) } else { (b, a) };
            let end = End {
                target: target as u8,
                text: text(r, style),
            };
            put_end(r, &mut bodies[k], k == a, end);
        }
    }
    bodies
}

/// A chart with leads to nothing, in most cases.
fn with_leads(r: &mut Random) -> Vec<Body> {
    let style = [0, 0, 1, 2, 3][r.below(5)];
    let way = r.below(8);
    if way == 7 {
        return lead_limits(r, style);
    }
    let mut bodies = sound(r);
    if bodies.is_empty() {
        bodies.push(Body::default());
    }
    let n = bodies.len();
    match way {
        // the last parts are taken out
        0 | 1 => bodies.truncate(r.among(1.max(n / 2), n)),
        // one part is taken out, and its number is another now
        2 => {
            let gone = r.below(n);
            if n > 1 {
                bodies.remove(gone);
            }
            let mut far = Far::new(r, bodies.len());
            let same = far.target(r);
            let all = r.chance(2);
            for body in &mut bodies {
                for end in body.sources.iter_mut().chain(body.sinks.iter_mut()) {
                    let target = usize::from(end.target);
                    if target == gone {
                        end.target = if all { same } else { far.target(r) };
                    } else if target > gone {
                        end.target -= 1;
                    }
                }
            }
        }
        // some ends lead to nothing instead
        3 | 4 => {
            let mut far = Far::new(r, n);
            let one_in = r.among(1, 6);
            for body in &mut bodies {
                for end in body.sources.iter_mut().chain(body.sinks.iter_mut()) {
                    if r.chance(one_in) {
                        end.target = far.target(r);
                    }
                }
            }
        }
        // some leads more
        _ => {
            let count = if r.chance(2) { r.among(1, 3) } else { r.among(1, 17) };
            let nodes = if r.chance(4) { 1 } else { n };
            put_leads(r, &mut bodies, count, nodes, style);
        }
    }
    if chart::leads(&bodies) == 0 && !r.chance(4) {
        let nodes = bodies.len();
        put_leads(r, &mut bodies, 1, nodes, style);
    }
    bodies
}

/// A chart with leads to nothing; one in eight is damaged, one in ten has degree
/// signs.
fn leading(r: &mut Random) -> Vec<u8> {
    let mut bodies = with_leads(r);
    if r.chance(10) {
        put_signs(r, &mut bodies);
    }
    let damage = r.below(16);
    if damage == 0 {
        damage_bodies(r, &mut bodies);
    }
    let mut chart = chart::write(&bodies);
    if damage == 1 {
        damage_bytes(r, &mut chart);
    }
    chart.truncate(chart::LISTING_BYTES);
    chart
}

/// Which charts are wanted.
#[derive(Clone, Copy, PartialEq)]
pub enum Kind {
    Sound,
    Damaged,
    /// With degree signs.
    Signs,
    /// With leads to nothing.
    Leads,
    /// One in six damaged.
    Mixed,
}

/// The kind of this name.
pub fn kind(name: &str) -> Option<Kind> {
    match name {
        "sound" => Some(Kind::Sound),
        "damaged" => Some(Kind::Damaged),
        "signs" => Some(Kind::Signs),
        "leads" => Some(Kind::Leads),
        "mixed" => Some(Kind::Mixed),
        _ => None,
    }
}

/// Chart `index` of a seed.
pub fn generated(seed: u64, index: u64, kind: Kind) -> Vec<u8> {
    let mut r = Random::new(seed, index);
    let broken = match kind {
        Kind::Sound => false,
        Kind::Damaged => true,
        Kind::Signs => return signed(&mut r),
        Kind::Leads => return leading(&mut r),
        Kind::Mixed => r.chance(6),
    };
    if broken {
        damaged(&mut r)
    } else {
        chart::write(&sound(&mut r))
    }
}

/// All graphs of up to 3 nodes and 4 edges given as sinks: every way to give
/// each node an ordered list of targets.
pub fn all_small() -> Vec<Vec<u8>> {
    let mut charts = vec![];
    for n in 0..=3 {
        let mut bodies = vec![Body::default(); n];
        lists(&mut bodies, 0, 4, &mut charts);
    }
    charts
}

fn lists(bodies: &mut [Body], k: usize, left: usize, charts: &mut Vec<Vec<u8>>) {
    if k == bodies.len() {
        charts.push(chart::write(bodies));
        return;
    }
    lists(bodies, k + 1, left, charts);
    if left > 0 {
        for target in 0..bodies.len() {
            bodies[k].sinks.push(End {
                target: target as u8,
                text: vec![],
            });
            lists(bodies, k, left - 1, charts);
            bodies[k].sinks.pop();
        }
    }
}

/// All charts without texts of 1 node and up to 5 ends, 2 and 3, 3 and 2, over the
/// targets 0, 1, 2, 3, 9: every way to give each node ordered lists of sources and
/// sinks.
pub fn all_small_leads() -> Vec<Vec<u8>> {
    let mut charts = vec![];
    for (n, most) in [(1, 5), (2, 3), (3, 2)] {
        let mut bodies = vec![Body::default(); n];
        end_lists(&mut bodies, 0, most, &mut charts);
    }
    charts
}

/// List 2k is the sources of node k, list 2k + 1 its sinks.
fn end_lists(bodies: &mut [Body], list: usize, left: usize, charts: &mut Vec<Vec<u8>>) {
    if list == 2 * bodies.len() {
        charts.push(chart::write(bodies));
        return;
    }
    end_lists(bodies, list + 1, left, charts);
    if left > 0 {
        for target in [0, 1, 2, 3, 9] {
            let text = vec![];
            ends_of(bodies, list).push(End { target, text });
            end_lists(bodies, list, left - 1, charts);
            ends_of(bodies, list).pop();
        }
    }
}

fn ends_of(bodies: &mut [Body], list: usize) -> &mut Vec<End> {
    let body = &mut bodies[list / 2];
    if list % 2 == 0 { &mut body.sources } else { &mut body.sinks }
}
