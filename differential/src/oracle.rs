//! Chart in, document 01's listing out, by the Rust.

use chart::{Asked, Setting};

const USAGE: &str = "oracle [--batch | --default] [--full] [--points] [--x N] [--y N] < charts
  one binary chart on standard input, or with --batch hex lines; it is strict,
  or with --default (a line: with D before the digits) leads to nothing are drawn
  --full   every box's owner and texts and the ends of every curve too
  --points every box's input points and output points too
  --x, --y the origin (0 0)";

fn main() {
    let mut asked = Asked::default();
    let mut batch = false;
    let mut setting = Setting::Strict;
    let mut args = std::env::args().skip(1);
    while let Some(arg) = args.next() {
        let mut number = || args.next().and_then(|n| n.parse().ok());
        let known = match arg.as_str() {
            "--batch" => {
                batch = true;
                true
            }
            "--default" => {
                setting = Setting::Default;
                true
            }
            "--full" => {
                asked.full = true;
                true
            }
            "--points" => {
                asked.points = true;
                true
            }
            "--x" => number().map(|n| asked.x = n).is_some(),
            "--y" => number().map(|n| asked.y = n).is_some(),
            _ => false,
        };
        if !known || (batch && setting == Setting::Default) {
            eprintln!("{USAGE}");
            std::process::exit(2);
        }
    }
    answer::quiet();
    chart::serve(batch, setting, |asking| Ok(answer::listing(asking, asked)));
}
