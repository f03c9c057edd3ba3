//! Runs a program against the Rust on generated charts, on all small graphs and
//! on lists of charts; prints the first difference, shrunk.

use std::{
    io::{Read, Write},
    process::{Command, Stdio},
};

use chart::{Asked, Asking, Body, End, Setting};
use generate::Kind;

const USAGE: &str = "compare [options] PROGRAM [ARGUMENT ..]
  --seed S     seed of the generated charts (1)
  --count N    how many (1000)
  --from I     first index (0)
  --kind K     sound, damaged, signs (degree signs), leads (to nothing) or mixed (mixed)
  --no-small   without the graphs of up to 3 nodes and 4 edges
  --small-leads  also the charts of `gen --small-leads`
  --default    all these in the default setting: lines with D; without --batch the
               program is to be told of it
  --list FILE  also the charts of a file of hex lines (may be repeated), each in the
               setting that its line has
  --batch      the program reads hex lines and ends each listing by an empty line;
               otherwise it is run once for each chart, on raw bytes
  --block N    charts for one run in batch mode (5000)
  --full       the program prints owners, texts and curves as `oracle --full` does
  --points     it prints points as `oracle --points` does
  --x N --y N  the origin that the program was told of (0 0)";

struct Program {
    command: Vec<String>,
    batch: bool,
    setting: Setting,
    asked: Asked,
}

impl Program {
    /// Standard output of one run on this input. The exit status is not judged.
    fn run(&self, input: Vec<u8>) -> Vec<u8> {
        let mut child = Command::new(&self.command[0])
            .args(&self.command[1..])
            .stdin(Stdio::piped())
            .stdout(Stdio::piped())
            .spawn()
            .unwrap_or_else(|e| {
                eprintln!("compare: {}: {e}", self.command[0]);
                std::process::exit(2)
            });
        let mut stdin = child.stdin.take().expect("piped");
        // a program may stop reading early: that is no error
        let writer = std::thread::spawn(move || stdin.write_all(&input).is_ok());
        let mut output = vec![];
        let mut stdout = child.stdout.take().expect("piped");
        stdout.read_to_end(&mut output).expect("program's output");
        drop(writer.join());
        let status = child.wait().expect("program's end");
        if status.code().is_none() {
            output.extend(b"(ended by a signal)\n");
        }
        output
    }

    /// One answer for each chart; None where the program gave none.
    fn answers(&self, charts: &[Asking]) -> Vec<Option<String>> {
        let text = |bytes: Vec<u8>| String::from_utf8_lossy(&bytes).into_owned();
        if !self.batch {
            return charts
                .iter()
                .map(|asking| Some(text(self.run(asking.chart.clone()))))
                .collect();
        }
        let mut input = vec![];
        for asking in charts {
            input.extend(asking.line().into_bytes());
            input.push(b'\n');
        }
        let output = text(self.run(input));
        let mut answers = vec![];
        let mut answer = String::new();
        for line in output.split_inclusive('\n') {
            if line == "\n" {
                answers.push(Some(std::mem::take(&mut answer)));
            } else {
                answer += line;
            }
        }
        if !answer.is_empty() || answers.len() > charts.len() {
            // more output than charts, or a last listing that is not ended
            answers.truncate(charts.len().saturating_sub(1));
            answers.push(Some(format!("{answer}(the output does not end here)\n")));
        }
        answers.resize(charts.len(), None);
        answers
    }

    fn expected(&self, asking: &Asking) -> String {
        answer::listing(asking, self.asked)
    }

    fn differs(&self, asking: &Asking) -> bool {
        let answers = self.answers(std::slice::from_ref(asking));
        answers[0].as_ref() != Some(&self.expected(asking))
    }

    /// These charts in the setting of the run.
    fn all(&self, charts: Vec<Vec<u8>>) -> Vec<Asking> {
        let setting = self.setting;
        let one = |chart| Asking { setting, chart };
        charts.into_iter().map(one).collect()
    }
}

fn without_node(bodies: &[Body], gone: usize) -> Vec<Body> {
    let keep = |ends: &[End]| {
        let mut kept = ends.to_vec();
        kept.retain(|end| usize::from(end.target) != gone);
        for end in &mut kept {
            if usize::from(end.target) > gone {
                end.target -= 1;
            }
        }
        kept
    };
    let mut left = vec![];
    for (k, body) in bodies.iter().enumerate() {
        if k != gone {
            left.push(Body {
                sources: keep(&body.sources),
                lines: body.lines.clone(),
                sinks: keep(&body.sinks),
            });
        }
    }
    left
}

/// Charts one step smaller.
fn smaller(chart: &[u8]) -> Vec<Vec<u8>> {
    let mut found = vec![];
    let Ok(bodies) = chart::read(chart) else {
        for i in (0..chart.len()).rev() {
            found.push(chart[..i].to_vec());
        }
        found.reverse();
        for i in 0..chart.len() {
            let mut less = chart.to_vec();
            less.remove(i);
            found.push(less);
        }
        return found;
    };
    for k in 0..bodies.len() {
        found.push(chart::write(&without_node(&bodies, k)));
    }
    for k in 0..bodies.len() {
        let mut with = |change: &dyn Fn(&mut Body)| {
            let mut less = bodies.clone();
            change(&mut less[k]);
            found.push(chart::write(&less));
        };
        let body = &bodies[k];
        if body.lines.len() > 1 {
            with(&|b| b.lines.clear());
        }
        for i in 0..body.lines.len() {
            with(&|b| drop(b.lines.remove(i)));
        }
        for i in 0..body.sources.len() {
            with(&|b| drop(b.sources.remove(i)));
        }
        for i in 0..body.sinks.len() {
            with(&|b| drop(b.sinks.remove(i)));
        }
        for to_nothing in [true, false] {
            let cut = |t: &mut Vec<u8>| {
                t.truncate(if to_nothing { 0 } else { t.len().saturating_sub(1) })
            };
            for i in 0..body.lines.len() {
                if !body.lines[i].is_empty() {
                    with(&|b| cut(&mut b.lines[i]));
                }
            }
            for i in 0..body.sources.len() {
                if !body.sources[i].text.is_empty() {
                    with(&|b| cut(&mut b.sources[i].text));
                }
            }
            for i in 0..body.sinks.len() {
                if !body.sinks[i].text.is_empty() {
                    with(&|b| cut(&mut b.sinks[i].text));
                }
            }
        }
    }
    found
}

/// The smallest chart that steps of `smaller` lead to and that still differs, in
/// the same setting.
fn shrink(program: &Program, asking: Asking) -> Asking {
    let mut asking = asking;
    'again: loop {
        for chart in smaller(&asking.chart) {
            let setting = asking.setting;
            let less = Asking { setting, chart };
            if program.differs(&less) {
                asking = less;
                continue 'again;
            }
        }
        return asking;
    }
}

fn show(program: &Program, name: &str, asking: &Asking) {
    println!("{name}: {}", asking.line());
    if let Ok(bodies) = chart::read(&asking.chart) {
        println!("  {}", chart::short(&bodies));
    }
    let answers = program.answers(std::slice::from_ref(asking));
    let ours = answers[0].clone().unwrap_or("(no answer)\n".to_string());
    for (who, text) in [
        ("the Rust", program.expected(asking)),
        ("the program", ours),
    ] {
        println!("{who}:");
        for line in text.lines() {
            println!("  {line}");
        }
    }
}

#[derive(Default)]
struct Tally {
    agreed: u64,
    differed: u64,
    sheets: u64,
    refused: [u64; 20],
    panics: u64,
    /// Sheets with leads to nothing, and those of them with cuts too.
    leads: u64,
    leads_cuts: u64,
    first: Option<Asking>,
}

impl Tally {
    fn compare(&mut self, program: &Program, charts: &[Asking]) {
        let answers = program.answers(charts);
        for (asking, answer) in charts.iter().zip(answers) {
            let expected = program.expected(asking);
            if let Some(rest) = expected.strip_prefix("refused ") {
                let number = rest.split(' ').next().and_then(|n| n.parse::<usize>().ok());
                self.refused[number.expect("a refusal's number")] += 1;
            } else if expected.starts_with("panic") {
                self.panics += 1;
            } else {
                self.sheets += 1;
                if chart::read(&asking.chart).is_ok_and(|bodies| chart::leads(&bodies) > 0) {
                    let first = expected.lines().next();
                    self.leads += 1;
                    self.leads_cuts += u64::from(first.is_some_and(|l| !l.ends_with(" 0")));
                }
            }
            if answer.as_ref() == Some(&expected) {
                self.agreed += 1;
            } else {
                self.differed += 1;
                self.first.get_or_insert_with(|| asking.clone());
            }
        }
    }
}

fn main() {
    let (mut seed, mut count, mut from, mut block) = (1, 1000, 0, 5000);
    let (mut kind, mut small, mut small_leads) = (Kind::Mixed, true, false);
    let mut lists = vec![];
    let mut program = Program {
        command: vec![],
        batch: false,
        setting: Setting::Strict,
        asked: Asked::default(),
    };
    let mut args = std::env::args().skip(1);
    while let Some(arg) = args.next() {
        let mut word = || args.next().unwrap_or_default();
        let known = match arg.as_str() {
            "--seed" => word().parse().map(|n| seed = n).is_ok(),
            "--count" => word().parse().map(|n| count = n).is_ok(),
            "--from" => word().parse().map(|n| from = n).is_ok(),
            "--block" => word().parse().map(|n: usize| block = n.max(1)).is_ok(),
            "--x" => word().parse().map(|n| program.asked.x = n).is_ok(),
            "--y" => word().parse().map(|n| program.asked.y = n).is_ok(),
            "--kind" => generate::kind(&word()).map(|k| kind = k).is_some(),
            "--list" => {
                lists.push(word());
                true
            }
            "--no-small" => {
                small = false;
                true
            }
            "--small-leads" => {
                small_leads = true;
                true
            }
            "--default" => {
                program.setting = Setting::Default;
                true
            }
            "--batch" => {
                program.batch = true;
                true
            }
            "--full" => {
                program.asked.full = true;
                true
            }
            "--points" => {
                program.asked.points = true;
                true
            }
            _ if !arg.starts_with("--") => {
                program.command.push(arg);
                program.command.extend(args.by_ref());
                true
            }
            _ => false,
        };
        if !known {
            eprintln!("{USAGE}");
            std::process::exit(2);
        }
    }
    if program.command.is_empty() {
        eprintln!("{USAGE}");
        std::process::exit(2);
    }
    answer::quiet();

    let mut tally = Tally::default();
    for file in &lists {
        let mut charts = vec![];
        // a program that is run on raw bytes has one setting
        let take = |asking: Asking| {
            if !program.batch && asking.setting != program.setting {
                return Err("the other setting needs --batch".to_string());
            }
            charts.push(asking);
            Ok(())
        };
        let read = std::fs::File::open(file)
            .map_err(|e| e.to_string())
            .and_then(|f| chart::each_line(std::io::BufReader::new(f), take));
        if let Err(message) = read {
            eprintln!("compare: {file}: {message}");
            std::process::exit(2);
        }
        println!("{} charts of {file}", charts.len());
        for charts in charts.chunks(block) {
            tally.compare(&program, charts);
        }
    }
    if small {
        let charts = program.all(generate::all_small());
        println!("{} graphs of up to 3 nodes and 4 edges", charts.len());
        for charts in charts.chunks(block) {
            tally.compare(&program, charts);
        }
    }
    if small_leads {
        let charts = program.all(generate::all_small_leads());
        println!(
            "{} charts of up to 3 nodes, with leads to nothing",
            charts.len()
        );
        for charts in charts.chunks(block) {
            tally.compare(&program, charts);
        }
    }
    if count > 0 {
        println!("{count} generated charts, seed {seed}, from {from}");
    }
    let end = from + count;
    while from < end {
        let next = end.min(from + block as u64);
        let charts = (from..next).map(|i| generate::generated(seed, i, kind));
        tally.compare(&program, &program.all(charts.collect()));
        from = next;
    }

    let refused: Vec<_> = (tally.refused.iter().enumerate())
        .filter(|(_, count)| **count > 0)
        .map(|(number, count)| format!("{number}: {count}"))
        .collect();
    println!(
        "the Rust: {} sheets, {} panics, refused {}",
        tally.sheets,
        tally.panics,
        refused.join(", ")
    );
    if tally.leads > 0 {
        println!(
            "{} sheets with leads, {} with cuts too",
            tally.leads, tally.leads_cuts
        );
    }
    println!("{} agreed, {} differed", tally.agreed, tally.differed);
    if let Some(first) = tally.first {
        println!();
        show(&program, "first difference", &first);
        if program.differs(&first) {
            let less = shrink(&program, first);
            println!();
            show(&program, "shrunk", &less);
        } else {
            println!("alone, this chart agrees: the program's answer depends on the charts before");
        }
        std::process::exit(1);
    }
    if tally.panics > 0 {
        std::process::exit(1);
    }
}
