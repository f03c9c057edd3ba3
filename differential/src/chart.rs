//! Charts as document 01 words them (module 1), with the degree signs and the
//! settings of document 02: reader with refusals 1 to 11, writer, short form,
//! hexadecimal, and what the programs share.

use std::io::{BufRead, Read};

pub const MAX_NODES: usize = 32;
pub const MAX_EDGES: usize = 64;
pub const MAX_BOXES: usize = 48;
pub const MAX_LINES: usize = 4;
pub const MAX_LENGTH: usize = 24;
/// The listing program reads no more of a chart.
pub const LISTING_BYTES: usize = 8192;
/// Neither origin plus width nor origin plus height exceeds it.
pub const MAX_POSITION: u64 = 8_388_608;

/// A degree sign in a text that was read: one letter, as the Rust is handed it,
/// and no text byte. In a chart it is C2 B0, and so it is printed.
pub const SIGN: u8 = 1;

/// A source or a sink as given.
#[derive(Clone, Debug, PartialEq)]
pub struct End {
    pub target: u8,
    pub text: Vec<u8>,
}

/// A node as given.
#[derive(Clone, Debug, Default, PartialEq)]
pub struct Body {
    pub sources: Vec<End>,
    pub lines: Vec<Vec<u8>>,
    pub sinks: Vec<End>,
}

/// A refusal: its number and its value.
#[derive(Clone, Copy, Debug, PartialEq)]
pub struct Refusal(pub u32, pub u64);

impl Refusal {
    pub fn line(self) -> String {
        format!("refused {} {}\n", self.0, self.1)
    }
}

struct Reader<'a> {
    chart: &'a [u8],
    place: usize,
}

impl Reader<'_> {
    /// The next byte, or 6.
    fn byte(&mut self) -> Result<u8, Refusal> {
        let byte = *self.chart.get(self.place).ok_or(Refusal(6, 0))?;
        self.place += 1;
        Ok(byte)
    }

    /// A length and its text, or 6, 8, 9.
    fn text(&mut self) -> Result<Vec<u8>, Refusal> {
        let length = self.byte()?;
        if usize::from(length) > MAX_LENGTH {
            return Err(Refusal(8, 0));
        }
        let mut text = vec![];
        let mut left = length;
        while left > 0 {
            let byte = self.byte()?;
            left -= 1;
            if byte == 0xc2 && left > 0 {
                if self.byte()? != 0xb0 {
                    return Err(Refusal(9, 0));
                }
                left -= 1;
                text.push(SIGN);
            } else if (32..=126).contains(&byte) {
                text.push(byte);
            } else {
                return Err(Refusal(9, 0));
            }
        }
        Ok(text)
    }

    fn ends(&mut self, count: u8) -> Result<Vec<End>, Refusal> {
        let mut ends = vec![];
        for _ in 0..count {
            let target = self.byte()?;
            let text = self.text()?;
            ends.push(End { target, text });
        }
        Ok(ends)
    }

    fn body(&mut self) -> Result<Body, Refusal> {
        let sources = self.byte()?;
        let lines = self.byte()?;
        if usize::from(lines) > MAX_LINES {
            return Err(Refusal(7, 0));
        }
        let sinks = self.byte()?;
        let sources = self.ends(sources)?;
        let lines = (0..lines).map(|_| self.text()).collect::<Result<_, _>>()?;
        let sinks = self.ends(sinks)?;
        Ok(Body {
            sources,
            lines,
            sinks,
        })
    }
}

/// Refusals 1 to 11. Targets are not judged here.
pub fn read(chart: &[u8]) -> Result<Vec<Body>, Refusal> {
    if chart.is_empty() {
        return Ok(vec![]);
    }
    if chart.len() < 2 {
        return Err(Refusal(1, 0));
    }
    if chart[0] != 1 {
        return Err(Refusal(2, 0));
    }
    let n = usize::from(chart[1]);
    if n > MAX_NODES {
        return Err(Refusal(3, 0));
    }
    if chart.len() < 2 + 2 * n {
        return Err(Refusal(4, 0));
    }
    let mut reader = Reader {
        chart,
        place: 2 + 2 * n,
    };
    let mut bodies = vec![];
    for k in 0..n {
        let entry = usize::from(chart[2 + 2 * k]) + 256 * usize::from(chart[3 + 2 * k]);
        if entry != reader.place {
            return Err(Refusal(5, 0));
        }
        bodies.push(reader.body()?);
    }
    if reader.place != chart.len() {
        return Err(Refusal(10, 0));
    }
    if edges(&bodies) > MAX_EDGES {
        return Err(Refusal(11, 0));
    }
    Ok(bodies)
}

/// Sources plus sinks over all nodes.
pub fn edges(bodies: &[Body]) -> usize {
    bodies.iter().map(|b| b.sources.len() + b.sinks.len()).sum()
}

/// Leads to nothing: sources and sinks whose target isn't below n.
pub fn leads(bodies: &[Body]) -> usize {
    let ends = bodies.iter().flat_map(|b| b.sources.iter().chain(&b.sinks));
    ends.filter(|end| usize::from(end.target) >= bodies.len())
        .count()
}

/// The chart of these bodies. A count or entry that does not fit is cut to its
/// low bits, as a damaged chart may have it.
pub fn write(bodies: &[Body]) -> Vec<u8> {
    let mut entries = vec![];
    let mut rest = vec![];
    let start = 2 + 2 * bodies.len();
    let text = |rest: &mut Vec<u8>, text: &[u8]| {
        let text = bytes(text);
        rest.push(text.len() as u8);
        rest.extend(text);
    };
    for body in bodies {
        entries.extend(((start + rest.len()) as u16).to_le_bytes());
        rest.push(body.sources.len() as u8);
        rest.push(body.lines.len() as u8);
        rest.push(body.sinks.len() as u8);
        for end in &body.sources {
            rest.push(end.target);
            text(&mut rest, &end.text);
        }
        for line in &body.lines {
            text(&mut rest, line);
        }
        for end in &body.sinks {
            rest.push(end.target);
            text(&mut rest, &end.text);
        }
    }
    let mut chart = vec![1, bodies.len() as u8];
    chart.extend(entries);
    chart.extend(rest);
    chart
}

/// A text's bytes in a chart.
pub fn bytes(text: &[u8]) -> Vec<u8> {
    let two = |&letter: &u8| if letter == SIGN { vec![0xc2, 0xb0] } else { vec![letter] };
    text.iter().flat_map(two).collect()
}

/// As `0: snk[0, 0]; 1: src[0 "text"] lin["line"]`.
pub fn short(bodies: &[Body]) -> String {
    let quoted = |text: &[u8]| format!("\"{}\"", String::from_utf8_lossy(&self::bytes(text)));
    let ends = |ends: &[End]| {
        let one = |end: &End| {
            if end.text.is_empty() {
                end.target.to_string()
            } else {
                format!("{} {}", end.target, quoted(&end.text))
            }
        };
        ends.iter().map(one).collect::<Vec<_>>().join(", ")
    };
    let mut nodes = vec![];
    for (k, body) in bodies.iter().enumerate() {
        let mut node = format!("{k}:");
        if !body.sources.is_empty() {
            node += &format!(" src[{}]", ends(&body.sources));
        }
        if !body.lines.is_empty() {
            let lines: Vec<_> = body.lines.iter().map(|line| quoted(line)).collect();
            node += &format!(" lin[{}]", lines.join(", "));
        }
        if !body.sinks.is_empty() {
            node += &format!(" snk[{}]", ends(&body.sinks));
        }
        nodes.push(node);
    }
    nodes.join("; ")
}

pub fn to_hex(bytes: &[u8]) -> String {
    bytes.iter().map(|byte| format!("{byte:02x}")).collect()
}

/// Digits are in lower case, as the product reads them.
pub fn from_hex(line: &str) -> Option<Vec<u8>> {
    let digits = line
        .chars()
        .map(|c| {
            c.to_digit(16)
                .filter(|_| !c.is_ascii_uppercase())
                .map(|d| d as u8)
        })
        .collect::<Option<Vec<u8>>>()?;
    if !digits.len().is_multiple_of(2) {
        return None;
    }
    Some(digits.chunks(2).map(|d| 16 * d[0] + d[1]).collect())
}

/// What the sheet and label calls do with a lead to nothing (document 02, L5).
#[derive(Clone, Copy, Debug, PartialEq)]
pub enum Setting {
    /// It is drawn.
    Default,
    /// It is refused by 12.
    Strict,
}

/// A chart and its setting, as a line of a list has them: hexadecimal, after `D`
/// in the default setting.
#[derive(Clone, Debug, PartialEq)]
pub struct Asking {
    pub setting: Setting,
    pub chart: Vec<u8>,
}

impl Asking {
    /// None if the line has another form.
    pub fn from_line(line: &str) -> Option<Self> {
        let (setting, digits) = match line.strip_prefix('D') {
            Some(rest) => (Setting::Default, rest),
            None => (Setting::Strict, line),
        };
        from_hex(digits).map(|chart| Self { setting, chart })
    }

    pub fn line(&self) -> String {
        match self.setting {
            Setting::Default => format!("D{}", to_hex(&self.chart)),
            Setting::Strict => to_hex(&self.chart),
        }
    }
}

/// Each line of a list in turn to `f`. An empty line is the chart of no bytes.
pub fn each_line(
    input: impl BufRead,
    mut f: impl FnMut(Asking) -> Result<(), String>,
) -> Result<(), String> {
    for (i, line) in input.lines().enumerate() {
        let line = line.map_err(|e| e.to_string())?;
        let number = i + 1;
        let asking = Asking::from_line(&line).ok_or(format!("line {number} is not hexadecimal"))?;
        f(asking).map_err(|message| format!("line {number}: {message}"))?;
    }
    Ok(())
}

/// Standard input as one binary chart.
pub fn whole_input() -> Vec<u8> {
    let mut chart = vec![];
    std::io::stdin()
        .read_to_end(&mut chart)
        .expect("standard input");
    chart
}

/// The part of a chart that the listing program reads.
pub fn listed(chart: &[u8]) -> &[u8] {
    &chart[..chart.len().min(LISTING_BYTES)]
}

/// What the listing programs are asked for.
#[derive(Clone, Copy, Default)]
pub struct Asked {
    /// Owners, texts and the ends of curves too.
    pub full: bool,
    /// Input points and output points too.
    pub points: bool,
    pub x: u32,
    pub y: u32,
}

/// Reads a list, or one chart in the setting, and prints `answer` of each.
pub fn serve(
    batch: bool,
    setting: Setting,
    mut answer: impl FnMut(&Asking) -> Result<String, String>,
) {
    use std::io::Write;
    let mut out = std::io::BufWriter::new(std::io::stdout().lock());
    let done = if batch {
        each_line(std::io::stdin().lock(), |asking| {
            writeln!(out, "{}", answer(&asking)?).expect("standard output");
            Ok(())
        })
    } else {
        let chart = whole_input();
        answer(&Asking { setting, chart }).map(|text| {
            write!(out, "{text}").expect("standard output");
        })
    };
    out.flush().expect("standard output");
    if let Err(message) = done {
        eprintln!("{message}");
        std::process::exit(2);
    }
}

/// For a program that has the strict setting only.
pub fn strict_only(asking: &Asking) -> Result<&[u8], String> {
    match asking.setting {
        Setting::Strict => Ok(&asking.chart),
        Setting::Default => Err("stages are of the strict setting only".to_string()),
    }
}
