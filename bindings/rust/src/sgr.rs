//! The SGR sequences of captures: reading them, and writing one that changes attributes.
use crate::cell::{Color, Drawing};
use std::fmt::{self, Write};

/// The runs of a capture: each text with its attributes. It begins with the default ones.
pub(crate) struct Runs<'a> {
    rest: &'a str,
    attrs: Drawing,
}

impl<'a> Runs<'a> {
    pub(crate) fn new(capture: &'a str) -> Runs<'a> {
        Runs {
            rest: capture,
            attrs: Drawing::default(),
        }
    }
}

impl<'a> Iterator for Runs<'a> {
    type Item = (Drawing, &'a str);

    fn next(&mut self) -> Option<(Drawing, &'a str)> {
        while let Some(behind) = self.rest.strip_prefix("\x1b[") {
            let (numbers, rest) = behind.split_once('m').unwrap_or((behind, ""));
            self.rest = rest;
            apply(&mut self.attrs, numbers);
        }
        let end = self.rest.find('\x1b').unwrap_or(self.rest.len());
        let (text, rest) = self.rest.split_at(end);
        self.rest = rest;
        (!text.is_empty()).then_some((self.attrs, text))
    }
}

/// Changes attributes as the numbers of an SGR sequence say, of those numbers that captures have.
fn apply(attrs: &mut Drawing, numbers: &str) {
    let mut numbers = numbers.split(';').map(|it| it.parse().unwrap_or(0));
    while let Some(number) = numbers.next() {
        match number {
            0 => *attrs = Drawing::default(),
            1 | 2 | 22 => (attrs.bold, attrs.dim) = (number == 1, number == 2),
            3 | 23 => attrs.italic = number == 3,
            4 | 24 => attrs.underline = number == 4,
            7 | 27 => attrs.inverse = number == 7,
            30..=37 => attrs.fgcolor = Color::Idx(number - 30),
            38 => attrs.fgcolor = color_of(&mut numbers),
            39 => attrs.fgcolor = Color::Default,
            40..=47 => attrs.bgcolor = Color::Idx(number - 40),
            48 => attrs.bgcolor = color_of(&mut numbers),
            49 => attrs.bgcolor = Color::Default,
            90..=97 => attrs.fgcolor = Color::Idx(number - 82),
            100..=107 => attrs.bgcolor = Color::Idx(number - 92),
            _ => {}
        }
    }
}

fn color_of(numbers: &mut impl Iterator<Item = u8>) -> Color {
    let mut number = || numbers.next().unwrap_or(0);
    if number() == 5 {
        Color::Idx(number())
    } else {
        Color::Rgb(number(), number(), number())
    }
}

/// Writes the SGR sequence that changes attributes to others: none if they are the same.
pub(crate) fn write_difference(
    writer: &mut impl Write,
    from: &Drawing,
    to: &Drawing,
) -> fmt::Result {
    if from == to {
        return Ok(());
    }
    if *to == Drawing::default() {
        return writer.write_str("\x1b[m");
    }
    let parts = [
        (from.fgcolor != to.fgcolor).then(|| color(to.fgcolor, 30)),
        (from.bgcolor != to.bgcolor).then(|| color(to.bgcolor, 40)),
        (intensity(from) != intensity(to)).then(|| intensity(to).to_string()),
        (from.italic != to.italic).then(|| switch(to.italic, 3)),
        (from.underline != to.underline).then(|| switch(to.underline, 4)),
        (from.inverse != to.inverse).then(|| switch(to.inverse, 7)),
    ];
    let parts: Vec<String> = parts.into_iter().flatten().collect();
    write!(writer, "\x1b[{}m", parts.join(";"))
}

/// A colour as a parameter of SGR, of text (30) or of its background (40).
fn color(color: Color, base: u8) -> String {
    match color {
        Color::Default => (base + 9).to_string(),
        Color::Idx(n @ 0..=7) => (base + n).to_string(),
        Color::Idx(n @ 8..=15) => (base + 52 + n).to_string(),
        Color::Idx(n) => format!("{};5;{n}", base + 8),
        Color::Rgb(red, green, blue) => format!("{};2;{red};{green};{blue}", base + 8),
    }
}

fn intensity(attrs: &Drawing) -> u8 {
    match (attrs.bold, attrs.dim) {
        (true, _) => 1,
        (_, true) => 2,
        _ => 22,
    }
}

fn switch(on: bool, number: u8) -> String {
    (if on { number } else { number + 20 }).to_string()
}

#[cfg(test)]
mod tests {
    use super::*;

    /// As `vt100` writes them: ECMA-48's numbers, and xterm's for colours.
    #[test]
    fn differences_lead() {
        let plain = Drawing::default();
        let mut bold = plain;
        (bold.bold, bold.fgcolor, bold.bgcolor) = (true, Color::Idx(9), Color::Rgb(1, 2, 3));
        let mut text = String::new();
        write_difference(&mut text, &plain, &bold).unwrap();
        assert_eq!(text, "\x1b[91;48;2;1;2;3;1m");
        let runs: Vec<_> = Runs::new("a\x1b[91;48;2;1;2;3;1mb\x1b[mc").collect();
        assert_eq!(runs, [(plain, "a"), (bold, "b"), (plain, "c")]);
        text.clear();
        write_difference(&mut text, &bold, &plain).unwrap();
        assert_eq!(text, "\x1b[m");
    }
}
