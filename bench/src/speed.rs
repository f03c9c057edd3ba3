//! The library and the Rust on the same charts, in turns.

use std::hint::black_box;

use answer::{arena, boxes, path};
use chart::{Asked, Asking, Setting};
use generate::Kind;
use triple_arena_render::internal::grid_process;

const GOAL: f64 = 2.0;

#[repr(C)]
struct Time {
    seconds: i64,
    nanoseconds: i64,
}

unsafe extern "C" {
    fn clock_gettime(clock: i32, time: *mut Time) -> i32;
}

/// Processor time of this thread, in seconds: Linux's clock 3.
fn now() -> f64 {
    let mut time = Time { seconds: 0, nanoseconds: 0 };
    assert_eq!(unsafe { clock_gettime(3, &mut time) }, 0);
    time.seconds as f64 + time.nanoseconds as f64 / 1e9
}

/// Charts of a seed that both draw, and draw alike.
fn charts(seed: u64, count: usize) -> Vec<Vec<u8>> {
    let mut charts = vec![];
    for index in 0.. {
        if charts.len() == count {
            break;
        }
        let chart = generate::generated(seed, index, Kind::Sound);
        let ours = library::listing(&chart);
        let asking = Asking { setting: Setting::Strict, chart };
        let theirs = answer::listing(&asking, Asked::default());
        if ours != theirs {
            println!("chart {index} of seed {seed} differs\nlibrary: {ours}\nthe Rust: {theirs}");
            std::process::exit(1);
        }
        // more than 48 boxes: the Rust would draw them
        if !ours.starts_with("refused 13") {
            charts.push(asking.chart);
        }
    }
    charts
}

fn median(mut times: Vec<f64>) -> f64 {
    times.sort_by(f64::total_cmp);
    times[times.len() / 2]
}

fn main() {
    let numbers: Vec<u64> = std::env::args()
        .skip(1)
        .map(|word| word.parse().expect("SEED COUNT ROUNDS"))
        .collect();
    let [seed, count, rounds] = numbers[..] else {
        panic!("SEED COUNT ROUNDS");
    };
    let charts = charts(seed, count as usize);
    let arenas: Vec<_> = charts
        .iter()
        .map(|chart| arena(&chart::read(chart).unwrap(), Setting::Strict))
        .collect();
    let mut buffer = vec![0; 16384];

    let mut our_sheet = || {
        for chart in &charts {
            black_box(library::sheet(black_box(chart)));
        }
    };
    let mut our_text = || {
        for chart in &charts {
            let result = library::sheet(black_box(chart));
            black_box(library::text(&result.sheet, &mut buffer).count);
        }
    };
    let rust_grid = |chart: &[u8]| {
        let bodies = chart::read(black_box(chart)).unwrap();
        grid_process(&arena(&bodies, Setting::Strict), true).unwrap()
    };
    let mut rust_sheet = || {
        for chart in &charts {
            black_box(rust_grid(chart));
        }
    };
    let mut rust_process = || {
        for arena in &arenas {
            black_box(grid_process(black_box(arena), true).unwrap());
        }
    };
    let mut rust_text = || {
        for chart in &charts {
            let grid = rust_grid(chart);
            black_box(path(&boxes(&grid), 0, 0));
        }
    };
    let mut works: [&mut dyn FnMut(); 5] = [
        &mut our_sheet,
        &mut rust_sheet,
        &mut rust_process,
        &mut our_text,
        &mut rust_text,
    ];
    let mut times = vec![vec![]; works.len()];
    for _ in 0..rounds {
        for (work, times) in works.iter_mut().zip(&mut times) {
            let began = now();
            work();
            times.push(now() - began);
        }
    }
    let rate: Vec<_> = times.into_iter().map(|t| count as f64 / median(t)).collect();
    let lines = [
        ("(a)  chart to sheet", rate[0], rate[1]),
        ("(a') chart to sheet, to grid_process alone", rate[0], rate[2]),
        ("(b)  chart to path text", rate[3], rate[4]),
    ];
    for (words, ours, theirs) in lines {
        let ratio = ours / theirs;
        let verdict = if ratio >= GOAL { "met" } else { "missed" };
        println!(
            "    {words:42} {ours:7.0} to {theirs:7.0}: {ratio:.2} times, at least {GOAL}: {verdict}"
        );
    }
}
