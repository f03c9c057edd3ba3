//! Looks for the charts that take the most: charts of a seed, changed at random, the best kept.
//! search SECONDS SEED CHARTS EMULATOR WORD..: begins with the charts of the file CHARTS (lines NAME HEX) and prints the file anew: what
//! was looked for is replaced by the best, other lines stay.

use std::{
    fs,
    process::Command,
    time::{Duration, Instant},
};

use chart::{Body, End, MAX_EDGES, MAX_LENGTH, MAX_LINES, MAX_NODES};
use generate::Random;

const KEPT: usize = 12;
const BATCH: usize = 24;
/// The target of a lead to nothing: no node has this number.
const NOTHING: u8 = 200;

/// What a chart takes. If its sheet is refused, all 0 but for the stack and the signal order.
#[derive(Clone, Copy, Default)]
struct Taken {
    cycles: u64,
    text_cycles: u64,
    order_cycles: u64,
    stack: u64,
    boxes: u64,
    leads: u64,
    text: u64,
    pairs: u64,
}

type Measure = fn(&Taken) -> u64;

/// Names of the charts looked for, and what each has the most of.
const LOOKED_FOR: [(&str, Measure); 8] = [
    ("slow", |t| t.cycles),
    ("slow48", |t| if t.boxes == 48 { t.cycles } else { 0 }),
    ("slowlead", |t| if t.leads > 0 { t.cycles } else { 0 }),
    ("pairs", |t| t.pairs),
    ("text", |t| t.text),
    ("slowtext", |t| t.text_cycles),
    ("sloworder", |t| t.order_cycles),
    ("deep", |t| t.stack),
];

type Chart = Vec<Body>;

/// The longest texts and all lines, which only add work.
fn fill(bodies: &mut Chart) {
    let text = vec![b'A'; MAX_LENGTH];
    for body in bodies {
        body.lines = vec![text.clone(); MAX_LINES];
        for end in body.sources.iter_mut().chain(&mut body.sinks) {
            end.text = text.clone();
        }
    }
}

fn any_list<'a>(r: &mut Random, bodies: &'a mut Chart) -> &'a mut Vec<End> {
    let k = r.below(bodies.len());
    let body = &mut bodies[k];
    if r.chance(2) { &mut body.sources } else { &mut body.sinks }
}

fn any_full_list<'a>(r: &mut Random, bodies: &'a mut Chart) -> Option<&'a mut Vec<End>> {
    let mut lists: Vec<_> = bodies
        .iter_mut()
        .flat_map(|body| [&mut body.sources, &mut body.sinks])
        .filter(|list| !list.is_empty())
        .collect();
    if lists.is_empty() {
        return None;
    }
    let i = r.below(lists.len());
    Some(lists.swap_remove(i))
}

/// A node, or nothing.
fn any_target(r: &mut Random, n: usize) -> u8 {
    if r.chance(6) { NOTHING } else { r.below(n) as u8 }
}

fn change(r: &mut Random, bodies: &mut Chart) {
    let n = bodies.len();
    match r.below(8) {
        // another target
        0 | 1 => {
            if let Some(list) = any_full_list(r, bodies) {
                let i = r.below(list.len());
                list[i].target = any_target(r, n);
            }
        }
        // one end moved to another list, or taken out
        2 | 3 => {
            if let Some(list) = any_full_list(r, bodies) {
                let end = list.remove(r.below(list.len()));
                if !r.chance(6) {
                    let list = any_list(r, bodies);
                    list.insert(r.below(list.len() + 1), end);
                }
            }
        }
        // one more end
        4 | 5 => {
            if chart::edges(bodies) < MAX_EDGES {
                let target = any_target(r, n);
                let list = any_list(r, bodies);
                let place = r.below(list.len() + 1);
                list.insert(place, End { target, text: vec![] });
            }
        }
        // two nodes change their numbers
        6 => {
            let (a, b) = (r.below(n), r.below(n));
            bodies.swap(a, b);
            for end in bodies.iter_mut().flat_map(|b| b.sources.iter_mut().chain(&mut b.sinks)) {
                let t = usize::from(end.target);
                end.target = if t == a { b } else if t == b { a } else { t } as u8;
            }
        }
        // one node more, or the last one less
        _ => {
            if r.chance(2) && n < MAX_NODES {
                bodies.push(Body::default());
            } else if n > 1 {
                bodies.pop();
                for body in bodies.iter_mut() {
                    body.sources.retain(|end| usize::from(end.target) != n - 1);
                    body.sinks.retain(|end| usize::from(end.target) != n - 1);
                }
            }
        }
    }
}

struct Search {
    r: Random,
    emulator: Vec<String>,
    best: Vec<(u64, Chart)>,
    tried: u64,
}

impl Search {
    /// The emulated unit on these charts.
    fn measured(&mut self, charts: &[Chart]) -> Vec<Taken> {
        let mut file = vec![];
        for bodies in charts {
            let bytes = chart::write(bodies);
            file.extend((bytes.len() as u32).to_le_bytes());
            file.extend(bytes);
        }
        fs::write("charts", file).expect("the file of charts");
        let run = Command::new(&self.emulator[0])
            .args(&self.emulator[1..])
            .output()
            .expect("the emulator");
        let numbers = |line: &str| -> Vec<u64> {
            line.split(' ').filter_map(|word| word.parse().ok()).collect()
        };
        let said = String::from_utf8_lossy(&run.stderr);
        let counted = String::from_utf8_lossy(&run.stdout);
        let mut counted = counted.lines().filter(|line| line.starts_with("cycles")).map(numbers);
        let mut all = vec![];
        for (line, bodies) in said.lines().filter(|l| l.starts_with("chart")).zip(charts) {
            let [refused, boxes, stack, text] = numbers(line)[..] else {
                panic!("the emulator said {line}");
            };
            let mut cycles = || counted.next().expect("cycles of a call")[1];
            let mut taken = Taken { stack, ..Taken::default() };
            let sheet_cycles = cycles();
            if refused == 0 {
                let (text_cycles, pairs) = (cycles(), second::pairs(bodies).expect("a chart that is drawn").1 as u64);
                let leads = chart::leads(bodies) as u64;
                taken = Taken { cycles: sheet_cycles, text_cycles, boxes, leads, text, pairs, ..taken };
            }
            taken.order_cycles = cycles();
            all.push(taken);
        }
        assert_eq!(all.len(), charts.len(), "the emulator said {said}");
        for (taken, bodies) in all.iter().zip(charts) {
            for ((_, measure), best) in LOOKED_FOR.iter().zip(&mut self.best) {
                if measure(taken) > best.0 {
                    *best = (measure(taken), bodies.clone());
                }
            }
        }
        self.tried += charts.len() as u64;
        all
    }

    /// A chart of the generator, or a kept one changed.
    fn next(&mut self, kept: &[(u64, Chart)]) -> Chart {
        let mut bodies = if kept.is_empty() || self.r.chance(12) {
            generate::sound(&mut self.r)
        } else {
            kept[self.r.below(kept.len())].1.clone()
        };
        if bodies.is_empty() {
            bodies.push(Body::default());
        }
        for _ in 0..self.r.among(1, 4) {
            change(&mut self.r, &mut bodies);
        }
        fill(&mut bodies);
        bodies
    }

    fn climb(&mut self, measure: Measure, first: &[Chart], time: Duration) {
        let began = Instant::now();
        let mut kept: Vec<(u64, Chart)> = vec![];
        let mut batch = first.to_vec();
        while began.elapsed() < time {
            while batch.len() < BATCH {
                batch.push(self.next(&kept));
            }
            let all = self.measured(&batch);
            kept.extend(all.iter().map(measure).zip(batch.drain(..)));
            kept.sort_by_key(|(most, _)| std::cmp::Reverse(*most));
            kept.dedup_by(|a, b| a.1 == b.1);
            kept.truncate(KEPT);
        }
    }

    /// Charts with many pairs and with many boxes, which need no emulator to be found.
    fn begin(&mut self, first: &mut Vec<Chart>, time: Duration) {
        let counted = |bodies: Chart| second::pairs(&bodies).map(|p| (p.1 as u64, p.0, bodies));
        let mut kept: Vec<_> = first.iter().cloned().filter_map(counted).collect();
        let began = Instant::now();
        while began.elapsed() < time {
            let parents: Vec<_> = kept.iter().map(|k| (k.0, k.2.clone())).collect();
            let early = began.elapsed() < time / 3;
            for _ in 0..8 * BATCH {
                let bodies = self.next(if early { &[] } else { &parents });
                kept.extend(counted(bodies));
            }
            kept.sort_by_key(|k| std::cmp::Reverse(k.0));
            kept.dedup_by(|a, b| a.2 == b.2);
            let boxes = kept.iter().skip(KEPT).max_by_key(|k| k.1).cloned();
            kept.truncate(KEPT);
            kept.extend(boxes);
        }
        first.extend(kept.into_iter().map(|k| k.2));
    }
}

fn main() {
    let words: Vec<String> = std::env::args().skip(1).collect();
    let (seconds, seed): (f64, u64) = (words[0].parse().unwrap(), words[1].parse().unwrap());
    let mut first: Vec<Chart> = vec![];
    let mut printed = vec![];
    for line in fs::read_to_string(&words[2]).unwrap().lines() {
        let (name, hex) = line.split_once(' ').expect("NAME HEX");
        if name != "#" {
            let bytes = chart::from_hex(hex).expect("hexadecimal");
            first.push(chart::read(&bytes).expect(name));
        }
        if LOOKED_FOR.iter().all(|l| l.0 != name) {
            println!("{line}");
            printed.push(hex.to_string());
        }
    }
    let mut search = Search {
        r: Random::new(seed, 0),
        emulator: words[3..].to_vec(),
        best: vec![(0, vec![]); LOOKED_FOR.len()],
        tried: 0,
    };
    let part = |share: f64| Duration::from_secs_f64(seconds * share);
    search.begin(&mut first, part(0.1));
    for ((_, measure), share) in LOOKED_FOR.iter().zip([0.25, 0.15, 0.2, 0.0, 0.1, 0.1, 0.1, 0.0]) {
        if share > 0.0 {
            search.climb(*measure, &first, part(share));
        }
    }
    for ((name, _), (most, bodies)) in LOOKED_FOR.iter().zip(&search.best) {
        let hex = chart::to_hex(&chart::write(bodies));
        let known = printed.contains(&hex);
        eprintln!("{name:9} {most}{}", if known { ", a chart that is there already" } else { "" });
        if !known {
            println!("{name} {hex}");
            printed.push(hex);
        }
    }
    eprintln!("{} charts tried", search.tried);
}
