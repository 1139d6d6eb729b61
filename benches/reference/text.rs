//! Reading collections and puzzles, by `docs/formats.md`.

/// The longest text of a puzzle, in bytes.
const LONGEST: usize = 1 << 20;

/// The longest text of a keyword line, in bytes.
const LONGEST_FIELD: usize = 1 << 16;

/// The word of a fault, with its line if it has one.
pub type Fault = String;

/// A puzzle. Its lines are numbered: the rows from the top, then the columns from the left.
pub struct Puzzle {
    pub width: usize,
    pub height: usize,
    /// The numbers of all clues, line after line.
    numbers: Vec<u16>,
    /// Where each line's numbers begin, and where the last ones end.
    starts: Vec<usize>,
    /// A character for each cell, `1` for a filled one.
    pub goal: Option<Vec<u8>>,
}

impl Puzzle {
    pub fn clue(&self, line: usize) -> &[u16] {
        &self.numbers[self.starts[line]..self.starts[line + 1]]
    }

    fn sum(&self, lines: std::ops::Range<usize>) -> usize {
        lines.flat_map(|line| self.clue(line)).map(|&number| usize::from(number)).sum()
    }

    /// Returns whether each clue fits its line, and rows and columns fill as many cells.
    fn is_admissible(&self) -> bool {
        let lines = self.height + self.width;
        let fits = |line| {
            let len = if line < self.height { self.width } else { self.height };
            least_len(self.clue(line)) <= len
        };
        (0..lines).all(fits) && self.sum(0..self.height) == self.sum(self.height..lines)
    }
}

/// Returns how many cells the runs take with one blank cell between neighbours.
pub fn least_len(clue: &[u16]) -> usize {
    clue.iter().map(|&number| usize::from(number) + 1).sum::<usize>().saturating_sub(1)
}

/// A line with its number, without the spaces and tabs at its ends.
#[derive(Clone, Copy)]
struct Line<'t> {
    number: usize,
    text: &'t [u8],
}

fn is_space(byte: u8) -> bool {
    byte == b' ' || byte == b'\t'
}

fn trim(mut text: &[u8]) -> &[u8] {
    while let [first, rest @ ..] = text {
        if !is_space(*first) {
            break;
        }
        text = rest;
    }
    while let [rest @ .., last] = text {
        if !is_space(*last) {
            break;
        }
        text = rest;
    }
    text
}

/// Returns the bytes up to the first line feed or the end, without a carriage return, and those after it.
fn split_line(text: &[u8]) -> (&[u8], &[u8]) {
    let (line, rest) = match text.iter().position(|&byte| byte == b'\n') {
        Some(end) => (&text[..end], &text[end + 1..]),
        None => (text, &text[text.len()..]),
    };
    (line.strip_suffix(b"\r").unwrap_or(line), rest)
}

fn lines_of(mut text: &[u8]) -> Vec<Line<'_>> {
    let mut lines = Vec::with_capacity(text.len() / 6 + 4);
    while !text.is_empty() {
        let (line, rest) = split_line(text);
        lines.push(Line { number: lines.len() + 1, text: trim(line) });
        text = rest;
    }
    lines
}

/// Returns the value of an ASCII number, or 100,000 if it is greater.
fn number(piece: &[u8]) -> Option<u32> {
    let mut value = 0;
    for &byte in piece {
        if !byte.is_ascii_digit() {
            return None;
        }
        value = (value * 10 + u32::from(byte - b'0')).min(100_000);
    }
    if piece.is_empty() { None } else { Some(value) }
}

fn size(piece: &[u8]) -> Option<usize> {
    number(piece).filter(|value| (1..=256).contains(value)).map(|value| value as usize)
}

fn pieces(text: &[u8]) -> impl Iterator<Item = &[u8]> {
    text.split(|&byte| byte == b',' || is_space(byte)).filter(|piece| !piece.is_empty())
}

/// Appends the numbers of a clue line. Returns whether it stands for a clue.
fn push_clue(text: &[u8], numbers: &mut Vec<u16>) -> bool {
    let (mut count, mut zeros) = (0, 0);
    for piece in pieces(text) {
        count += 1;
        match number(piece) {
            Some(0) => zeros += 1,
            Some(value @ 1..=256) => numbers.push(value as u16),
            _ => return false,
        }
    }
    count <= 128 && (zeros == 0 || count == 1)
}

/// Returns the `count` clue lines of a section.
fn clue_lines<'t>(section: &[Line<'t>], count: usize) -> Option<Vec<Line<'t>>> {
    let is_filled = |line: &&Line| !line.text.is_empty();
    if section.iter().filter(is_filled).count() == count {
        let mut lines = Vec::with_capacity(count);
        lines.extend(section.iter().filter(is_filled));
        return Some(lines);
    }
    let (first, rest) = (section.get(..count)?, &section[count..]);
    if rest.iter().any(|line| !line.text.is_empty()) { None } else { Some(first.to_vec()) }
}

fn build(width: usize, height: usize, clues: &[Line], goal: Option<Line>) -> Result<Puzzle, Fault> {
    let mut puzzle = Puzzle { width, height, numbers: Vec::with_capacity(8 * clues.len()), starts: vec![0], goal: None };
    puzzle.starts.reserve(clues.len());
    let mut bad = None;
    for line in clues {
        if !push_clue(line.text, &mut puzzle.numbers) {
            bad = Some(line.number.min(bad.unwrap_or(line.number)));
        }
        puzzle.starts.push(puzzle.numbers.len());
    }
    if let Some(bad) = bad {
        return Err(format!("BadNumber:{bad}"));
    }
    if let Some(goal) = goal {
        if goal.text.len() != width * height || goal.text.iter().any(|byte| !b"01".contains(byte)) {
            return Err(format!("BadGoal:{}", goal.number));
        }
        puzzle.goal = Some(goal.text.to_vec());
    }
    Ok(puzzle)
}

/// Returns the two sizes of the size line, and the lines below it.
fn sizes<'a, 't>(lines: &'a [Line<'t>]) -> Result<(usize, usize, &'a [Line<'t>]), Fault> {
    let at = lines.iter().position(|line| !line.text.is_empty()).ok_or("NoSize")?;
    let mut both = pieces(lines[at].text);
    match (both.next(), both.next(), both.next()) {
        (Some(first), Some(second), None) => {
            let (first, second) = (size(first).ok_or("BadSize")?, size(second).ok_or("BadSize")?);
            Ok((first, second, &lines[at + 1..]))
        }
        _ => Err("NoSize".into()),
    }
}

fn read_mk(lines: &[Line]) -> Result<Puzzle, Fault> {
    let (first, second, below) = sizes(lines)?;
    let mut sections = below.split(|line| line.text.first() == Some(&b'#'));
    let rows = sections.next().unwrap_or(below);
    let columns = sections.next().ok_or("NoSection")?;
    for (height, width) in [(first, second), (second, first)] {
        if let (Some(mut clues), Some(columns)) = (clue_lines(rows, height), clue_lines(columns, width)) {
            clues.extend(columns);
            return build(width, height, &clues, None);
        }
    }
    Err("BadCount".into())
}

fn read_nin(lines: &[Line]) -> Result<Puzzle, Fault> {
    let (first, second, below) = sizes(lines)?;
    let clues = clue_lines(below, first + second).ok_or("BadCount")?;
    let turned = build(second, first, &clues, None)?;
    let usual = build(first, second, &clues, None)?;
    Ok(if turned.is_admissible() && !usual.is_admissible() { turned } else { usual })
}

/// Returns the text of a keyword line, by its rest.
fn field(rest: &[u8]) -> &[u8] {
    let quote = |byte: &u8| *byte == b'"';
    match (rest.iter().position(quote), rest.iter().rposition(quote)) {
        (Some(first), Some(last)) if first < last => &rest[first + 1..last],
        _ => rest,
    }
}

/// What a `.non` text has so far: for `width` and `height` the size if it is one, for `rows` and `columns` the section.
#[derive(Default)]
struct Outline<'t> {
    sizes: [Option<Option<usize>>; 2],
    sections: [Option<Vec<Line<'t>>>; 2],
    goal: Option<Line<'t>>,
    fields: Vec<Vec<u8>>,
    bad_line: Option<usize>,
    twice: Option<usize>,
}

impl<'t> Outline<'t> {
    /// Takes a keyword line, and returns which section it begins.
    fn keyword(&mut self, line: Line<'t>) -> Option<usize> {
        let end = line.text.iter().position(|byte| !byte.is_ascii_alphabetic()).unwrap_or(line.text.len());
        let (word, rest) = (line.text[..end].to_ascii_lowercase(), trim(&line.text[end..]));
        match &word[..] {
            b"width" | b"height" => {
                let place = usize::from(word[0] == b'h');
                if self.sizes[place].is_some() {
                    self.twice = self.twice.or(Some(line.number));
                } else {
                    self.sizes[place] = Some(size(rest));
                }
            }
            b"rows" | b"columns" => {
                let place = usize::from(word[0] == b'c');
                if self.sections[place].is_some() {
                    self.twice = self.twice.or(Some(line.number));
                }
                self.sections[place].get_or_insert_with(|| Vec::with_capacity(64));
                return Some(place);
            }
            b"goal" => self.goal = self.goal.or(Some(Line { number: line.number, text: field(rest) })),
            b"catalogue" | b"title" | b"by" | b"copyright" | b"license" if !self.fields.contains(&word) => {
                if field(rest).len() > LONGEST_FIELD {
                    self.bad_line = self.bad_line.or(Some(line.number));
                }
                self.fields.push(word);
            }
            _ => {}
        }
        None
    }
}

fn read_non(lines: &[Line]) -> Result<Puzzle, Fault> {
    let mut outline = Outline::default();
    let mut section = None;
    for &line in lines {
        match line.text.first() {
            Some(b'#') => {}
            Some(first) if first.is_ascii_alphabetic() => section = outline.keyword(line),
            first => match section.and_then(|place: usize| outline.sections[place].as_mut()) {
                Some(section) => section.push(line),
                None if first.is_some() => outline.bad_line = outline.bad_line.or(Some(line.number)),
                None => {}
            },
        }
    }
    let [width, height] = outline.sizes;
    let (width, height) = (width.ok_or("NoSize")?, height.ok_or("NoSize")?);
    let (width, height) = (width.ok_or("BadSize")?, height.ok_or("BadSize")?);
    let [rows, columns] = outline.sections;
    let (rows, columns) = (rows.ok_or("NoSection")?, columns.ok_or("NoSection")?);
    if let Some(line) = outline.bad_line {
        return Err(format!("BadLine:{line}"));
    }
    if let Some(line) = outline.twice {
        return Err(format!("Twice:{line}"));
    }
    let mut clues = clue_lines(&rows, height).ok_or("BadCount")?;
    clues.extend(clue_lines(&columns, width).ok_or("BadCount")?);
    build(width, height, &clues, outline.goal)
}

/// An entry of a collection.
pub struct Entry<'t> {
    pub name: &'t [u8],
    pub text: &'t [u8],
}

impl Entry<'_> {
    pub fn read(&self) -> Result<Puzzle, Fault> {
        let name = self.name.to_ascii_lowercase();
        let readers: [(&[u8], fn(&[Line]) -> Result<Puzzle, Fault>); 3] =
            [(b".non", read_non), (b".mk", read_mk), (b".nin", read_nin)];
        for (ending, reader) in readers {
            if name.ends_with(ending) {
                return if self.text.len() > LONGEST { Err("TooLong".into()) } else { reader(&lines_of(self.text)) };
            }
        }
        Err("UnknownFormat".into())
    }
}

/// Returns the name on a line, if it is a marker line.
fn marker(line: &[u8]) -> Option<&[u8]> {
    match line {
        [b'@'] => Some(b""),
        [b'@', space, name @ ..] if is_space(*space) => Some(trim(name)),
        _ => None,
    }
}

pub fn entries(text: &[u8]) -> Result<Vec<Entry<'_>>, Fault> {
    let mut entries: Vec<Entry> = Vec::new();
    let mut below = text;
    let mut number = 0;
    let mut start = text;
    while !below.is_empty() {
        let above = below;
        let (line, rest) = split_line(below);
        below = rest;
        number += 1;
        let name = marker(line);
        if name == Some(b"") || (name.is_none() && entries.is_empty() && !trim(line).is_empty()) {
            return Err(format!("Stray:{number}"));
        }
        if let Some(name) = name {
            if let Some(last) = entries.last_mut() {
                last.text = &start[..start.len() - above.len()];
            }
            start = below;
            entries.push(Entry { name, text: below });
        }
    }
    if entries.len() > 10_000 {
        return Err("TooMany".into());
    }
    Ok(entries)
}
