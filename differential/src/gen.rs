//! Prints generated charts as hex lines.

use std::io::Write;

use chart::{Asking, Setting};
use generate::Kind;

const USAGE: &str = "gen [--seed S] [--count N] [--from I] [--kind sound|damaged|signs|leads|mixed]
    [--small | --small-leads] [--default]
  --small        all graphs of up to 3 nodes and 4 edges given as sinks instead
  --small-leads  all charts without texts of 1 node and up to 5 ends, 2 and 3, 3
                 and 2, over the targets 0, 1, 2, 3, 9 instead
  --default      lines of the default setting: D before the digits";

fn main() {
    let (mut seed, mut count, mut from) = (1, 100, 0);
    let mut kind = Kind::Mixed;
    let (mut small, mut small_leads) = (false, false);
    let mut setting = Setting::Strict;
    let mut args = std::env::args().skip(1);
    while let Some(arg) = args.next() {
        let mut word = || args.next().unwrap_or_default();
        let known = match arg.as_str() {
            "--seed" => word().parse().map(|n| seed = n).is_ok(),
            "--count" => word().parse().map(|n| count = n).is_ok(),
            "--from" => word().parse().map(|n| from = n).is_ok(),
            "--kind" => generate::kind(&word()).map(|k| kind = k).is_some(),
            "--small" => {
                small = true;
                true
            }
            "--small-leads" => {
                small_leads = true;
                true
            }
            "--default" => {
                setting = Setting::Default;
                true
            }
            _ => false,
        };
        if !known {
            eprintln!("{USAGE}");
            std::process::exit(2);
        }
    }
    let mut out = std::io::BufWriter::new(std::io::stdout().lock());
    let mut line = |chart: Vec<u8>| {
        writeln!(out, "{}", Asking { setting, chart }.line()).expect("standard output");
    };
    if small || small_leads {
        let charts = if small { generate::all_small() } else { generate::all_small_leads() };
        charts.into_iter().for_each(line);
    } else {
        for index in from..from + count {
            line(generate::generated(seed, index, kind));
        }
    }
}
