//! Writes a circuit as text, in any of the ways that mean the same.

use circuits::{Kind, Netlist, Part, Random};

pub const BYTE_ORDER_MARK: &str = "\u{feff}";

/// What may stand between two words: blanks, and ends of lines that are carried on.
const GAPS: [&str; 12] = [
    " ",
    " ",
    " ",
    "  ",
    "      ",
    "\t",
    " \t ",
    " \\\n",
    " \\\n    ",
    "\t\\\r\n",
    " \\\r\n\t",
    " \\\n  \\\n ",
];

/// What may stand behind the last word of a line. Some comments look like words of the form.
const ENDS: [&str; 10] = [
    "",
    "",
    "",
    " ",
    "\t ",
    " # from here on",
    "\t#",
    " #delay 7 from x",
    "  # 5 µs – später # to do",
    " # C:\\",
];

/// Lines that say nothing.
const IDLE: [&str; 7] = [
    "",
    "",
    "   ",
    "\t",
    "# output z delay 3 by 9 from a",
    "#input b at 0",
    "   ## more \"here\"",
];

/// One who writes, with habits: not every text has everything in it.
struct Hand<'a> {
    random: &'a mut Random,
    gaps: &'static [&'static str],
    ends: &'static [&'static str],
    newlines: &'static [&'static str],
}

/// The order of components is their numbering, and stays; all else is free.
pub fn text(random: &mut Random, netlist: &Netlist, names: &[String]) -> Vec<u8> {
    let gaps = random.pick(&[&GAPS[..1], &GAPS[..7], &GAPS, &GAPS]);
    let ends = random.pick(&[&ENDS[..1], &ENDS]);
    let newlines: &[&str] = random.pick(&[&["\n"] as &[&str], &["\n"], &["\r\n"], &["\n", "\r\n"]]);
    let mut hand = Hand {
        random,
        gaps,
        ends,
        newlines,
    };
    let mut text = String::new();
    if hand.random.one_in(8) {
        text.push_str(BYTE_ORDER_MARK);
    }
    for number in 0..netlist.parts.len() {
        text.push_str(&hand.idle_lines());
        text.push_str(&hand.line(netlist, names, number));
    }
    if hand.random.one_in(4) {
        // The last line may end with the file.
        text.truncate(text.trim_end_matches(['\r', '\n']).len());
    }
    text.into_bytes()
}

/// `input`, `gate` or `output`.
pub fn word(kind: Kind) -> &'static str {
    match kind {
        Kind::Input => "input",
        Kind::Inner => "gate",
        Kind::Output => "output",
    }
}

impl Hand<'_> {
    /// None at all from those who have no comments either.
    fn idle_lines(&mut self) -> String {
        let mut lines = String::new();
        while self.ends.len() > 1 && self.random.one_in(6) {
            lines.push_str(self.random.pick(&IDLE));
            lines.push_str(self.random.pick(self.newlines));
        }
        lines
    }

    fn line(&mut self, netlist: &Netlist, names: &[String], number: usize) -> String {
        let part = &netlist.parts[number];
        let mut attributes = self.numbers(part);
        let mut words = vec!["from"];
        words.extend(self.sources(netlist, names, number));
        if words.len() > 1 {
            attributes.push(self.joined(&words));
        }
        shuffle(self.random, &mut attributes);
        let mut words = vec![word(part.kind), names[number].as_str()];
        words.extend(attributes.iter().map(String::as_str));
        let indent = self.random.pick(&["", "", "", " ", "\t  "]);
        let line = self.joined(&words);
        let end = self.random.pick(self.ends);
        format!("{indent}{line}{end}{}", self.random.pick(self.newlines))
    }

    fn sources<'n>(
        &mut self,
        netlist: &Netlist,
        names: &'n [String],
        number: usize,
    ) -> Vec<&'n str> {
        let wires = netlist.wires.iter();
        let mut sources: Vec<&str> = wires
            .filter(|&&(to, _)| usize::from(to) == number)
            .map(|&(_, from)| names[usize::from(from)].as_str())
            .collect();
        shuffle(self.random, &mut sources);
        sources
    }

    /// The attributes that are numbers.
    fn numbers(&mut self, part: &Part) -> Vec<String> {
        let mut attributes = Vec::new();
        match part.kind {
            Kind::Input => attributes.push(("at", i64::from(part.time))),
            Kind::Output => attributes.push(("by", i64::from(part.time))),
            Kind::Inner => {}
        }
        if part.kind != Kind::Input || self.random.one_in(3) {
            attributes.push(("delay", i64::from(part.base)));
        }
        let mut write = |(name, value)| {
            let number = number(self.random, value, name != "delay");
            self.joined(&[name, &number])
        };
        attributes.into_iter().map(&mut write).collect()
    }

    fn joined(&mut self, words: &[&str]) -> String {
        let mut line = words[0].to_string();
        for word in &words[1..] {
            line.push_str(self.random.pick(self.gaps));
            line.push_str(word);
        }
        line
    }
}

/// Zeros in front mean nothing, not base eight either; nor does the sign of 0.
fn number(random: &mut Random, value: i64, signed: bool) -> String {
    let zeros = random.pick(&[0, 0, 0, 0, 1, 2, 30]);
    let minus = value < 0 || (signed && value == 0 && random.one_in(4));
    let sign = if minus { "-" } else { "" };
    format!("{sign}{}{}", "0".repeat(zeros), value.abs())
}

fn shuffle<T>(random: &mut Random, all: &mut [T]) {
    for left in (1..all.len()).rev() {
        all.swap(left, random.below(left + 1));
    }
}
