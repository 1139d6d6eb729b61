//! Making the five collections on which programs are compared, each by a seed.

use crate::solver::Reporter;
use crate::text::{Entry, Puzzle};
use std::fmt::Write;

/// The greatest limit on guesses of a puzzle that is looked at.
const LIMIT: u32 = 1000;

/// Pseudorandom numbers, by xorshift.
pub struct Draws(u64);

impl Draws {
    pub fn new(seed: u64) -> Draws {
        let mut draws = Draws(seed.wrapping_mul(0x9E37_79B9_7F4A_7C15) | 1);
        for _ in 0..16 {
            draws.next();
        }
        draws
    }

    fn next(&mut self) -> u64 {
        self.0 ^= self.0 << 13;
        self.0 ^= self.0 >> 7;
        self.0 ^= self.0 << 17;
        self.0.wrapping_mul(0x2545_F491_4F6C_DD1D) >> 33
    }

    fn between(&mut self, least: usize, greatest: usize) -> usize {
        least + self.next() as usize % (greatest - least + 1)
    }

    fn chance(&mut self, percent: usize) -> bool {
        self.between(1, 100) <= percent
    }
}

/// Which cells are filled, by rows.
#[derive(Clone)]
struct Picture {
    width: usize,
    height: usize,
    filled: Vec<bool>,
}

impl Picture {
    fn new(width: usize, height: usize, mut is_filled: impl FnMut(usize, usize) -> bool) -> Picture {
        let mut filled = Vec::with_capacity(width * height);
        for y in 0..height {
            filled.extend((0..width).map(|x| is_filled(x, y)));
        }
        Picture { width, height, filled }
    }

    fn noise(draws: &mut Draws, width: usize, height: usize, percent: usize) -> Picture {
        Picture::new(width, height, |_, _| draws.chance(percent))
    }

    fn has(&self, x: usize, y: usize) -> bool {
        x < self.width && y < self.height && self.filled[y * self.width + x]
    }

    /// Returns the picture in which a cell is filled if at least five of it and its eight neighbours are here.
    fn smoothed(&self) -> Picture {
        Picture::new(self.width, self.height, |x, y| {
            let around = (0..9).filter(|k| self.has((x + k % 3).wrapping_sub(1), (y + k / 3).wrapping_sub(1)));
            around.count() >= 5
        })
    }

    /// Returns something like a drawing: smoothed noise with ellipses, rings and bars, at times mirrored.
    fn drawing(draws: &mut Draws, width: usize, height: usize) -> Picture {
        let percent = draws.between(40, 53);
        let mut picture = Picture::noise(draws, width, height, percent);
        for _ in 0..draws.between(1, 3) {
            picture = picture.smoothed();
        }
        for _ in 0..draws.between(0, 4) {
            picture.draw_ellipse(draws);
        }
        for _ in 0..draws.between(0, 3) {
            picture.draw_bar(draws);
        }
        if draws.chance(25) {
            let half = picture.clone();
            picture = Picture::new(width, height, |x, y| half.has(x.min(width - 1 - x), y));
        }
        picture
    }

    /// Fills or blanks an ellipse or a ring.
    fn draw_ellipse(&mut self, draws: &mut Draws) {
        let centre = (draws.between(0, self.width - 1) as f64, draws.between(0, self.height - 1) as f64);
        let radii = (draws.between(2, self.width / 2 + 1) as f64, draws.between(2, self.height / 2 + 1) as f64);
        let (is_filled, inner) = (draws.chance(65), if draws.chance(40) { 0.6 } else { 0.0 });
        for (k, cell) in self.filled.iter_mut().enumerate() {
            let across = ((k % self.width) as f64 - centre.0) / radii.0;
            let down = ((k / self.width) as f64 - centre.1) / radii.1;
            if (inner..=1.0).contains(&(across * across + down * down)) {
                *cell = is_filled;
            }
        }
    }

    fn draw_bar(&mut self, draws: &mut Draws) {
        let (x, y) = (draws.between(0, self.width - 1), draws.between(0, self.height - 1));
        let (length, is_upright) = (draws.between(3, self.width.max(self.height)), draws.chance(50));
        for step in 0..length {
            let (x, y) = if is_upright { (x, y + step) } else { (x + step, y) };
            if x < self.width && y < self.height {
                self.filled[y * self.width + x] = true;
            }
        }
    }

    fn clues(&self) -> Clues {
        let (width, height) = (self.width, self.height);
        Clues {
            rows: (0..height).map(|y| runs((0..width).map(|x| self.has(x, y)))).collect(),
            columns: (0..width).map(|x| runs((0..height).map(|y| self.has(x, y)))).collect(),
        }
    }

    fn goal(&self) -> String {
        self.filled.iter().map(|&is_filled| if is_filled { '1' } else { '0' }).collect()
    }
}

type Clue = Vec<usize>;

fn runs(cells: impl Iterator<Item = bool>) -> Clue {
    let (mut runs, mut run) = (Vec::new(), 0);
    for is_filled in cells.chain([false]) {
        if is_filled {
            run += 1;
        } else if run > 0 {
            runs.push(run);
            run = 0;
        }
    }
    runs
}

struct Clues {
    rows: Vec<Clue>,
    columns: Vec<Clue>,
}

impl Clues {
    fn new(rows: Vec<Clue>, columns: Vec<Clue>) -> Clues {
        Clues { rows, columns }
    }
}

/// Returns the lines of a section.
fn section(clues: &[Clue], separator: &str) -> String {
    let line = |clue: &Clue| {
        let numbers: Vec<String> = clue.iter().map(|number| number.to_string()).collect();
        if numbers.is_empty() { "0\n".into() } else { numbers.join(separator) + "\n" }
    };
    clues.iter().map(line).collect()
}

/// Returns the ending of a puzzle's name and its text, in a format that depends on its number.
fn text(number: usize, clues: &Clues, goal: Option<String>) -> (&'static str, String) {
    let (width, height) = (clues.columns.len(), clues.rows.len());
    let separator = if number % 3 == 0 { "," } else { " " };
    let (rows, columns) = (section(&clues.rows, separator), section(&clues.columns, separator));
    match number % 3 {
        0 => {
            let mut text =
                format!("title \"Puzzle {number}\"\nwidth {width}\nheight {height}\n\nrows\n{rows}\ncolumns\n{columns}");
            if let Some(goal) = goal {
                writeln!(text, "\ngoal \"{goal}\"").unwrap();
            }
            ("non", text)
        }
        1 => ("mk", format!("{height} {width}\n{rows}#\n{columns}")),
        _ => ("nin", format!("{width} {height}\n{rows}{columns}")),
    }
}

/// A collection that is being made.
struct Collection {
    name: &'static str,
    text: String,
    count: usize,
    drawn: usize,
    reporter: Reporter,
}

impl Collection {
    fn new(name: &'static str) -> Collection {
        Collection { name, text: String::new(), count: 0, drawn: 0, reporter: Reporter::new() }
    }

    /// Adds a puzzle, if it is one to keep.
    fn offer(&mut self, clues: &Clues, goal: Option<String>, is_kept: impl FnOnce(&mut Reporter, &Puzzle) -> bool) {
        self.drawn += 1;
        let (ending, text) = text(self.drawn, clues, goal);
        let name = format!("{}{}.{ending}", self.name, self.drawn);
        let puzzle = Entry { name: name.as_bytes(), text: text.as_bytes() }.read().expect("a puzzle that can be read");
        if is_kept(&mut self.reporter, &puzzle) {
            self.count += 1;
            write!(self.text, "@ {name}\n{text}").unwrap();
        }
    }

    /// Offers pictures until there are `count` puzzles.
    fn fill(
        &mut self,
        count: usize,
        draws: &mut Draws,
        picture: impl Fn(&mut Draws) -> Picture,
        is_kept: impl Fn(&mut Reporter, &Puzzle) -> bool,
    ) {
        while self.count < count {
            let picture = picture(draws);
            let goal = if draws.chance(70) { Some(picture.goal()) } else { None };
            self.offer(&picture.clues(), goal, &is_kept);
        }
    }
}

fn cells(puzzle: &Puzzle) -> u32 {
    (puzzle.width * puzzle.height) as u32
}

fn is_solved_by_lines(reporter: &mut Reporter, puzzle: &Puzzle) -> bool {
    reporter.line_known(puzzle) == cells(puzzle)
}

/// Returns 2,000 pictures of 10 to 50 cells a side that lines solve.
fn pictures(draws: &mut Draws) -> Collection {
    let mut collection = Collection::new("pictures");
    let picture = |draws: &mut Draws| {
        let (width, height) = (draws.between(10, 50), draws.between(10, 50));
        Picture::drawing(draws, width, height)
    };
    collection.fill(2000, draws, picture, is_solved_by_lines);
    collection
}

/// Returns 100 pictures of 100 to 128 cells a side: 90 that lines solve, and 10 of which lines leave at most 6% open.
fn large(draws: &mut Draws) -> Collection {
    let mut collection = Collection::new("large");
    let picture = |draws: &mut Draws| {
        let (width, height) = (draws.between(100, 128), draws.between(100, 128));
        let mut picture = Picture::drawing(draws, width, height);
        for _ in 0..draws.between(1, 4) {
            picture = picture.smoothed();
        }
        picture
    };
    collection.fill(90, draws, picture, is_solved_by_lines);
    collection.fill(100, draws, picture, |reporter, puzzle| {
        let (known, cells) = (reporter.line_known(puzzle), cells(puzzle));
        known < cells && known * 100 > cells * 94
    });
    collection
}

/// Returns 300 puzzles of 15 to 30 cells a side that trials solve.
fn trials(draws: &mut Draws) -> Collection {
    let mut collection = Collection::new("trials");
    let picture = |draws: &mut Draws| {
        let (width, height, percent) = (draws.between(15, 30), draws.between(15, 30), draws.between(50, 65));
        if draws.chance(50) {
            Picture::drawing(draws, width, height)
        } else {
            Picture::noise(draws, width, height, percent)
        }
    };
    collection.fill(300, draws, picture, |reporter, puzzle| {
        let report = reporter.report(puzzle, 0);
        report.grade == "trials" && report.verdict == "one"
    });
    collection
}

/// Returns 100 puzzles of 25 to 40 cells a side on which 100 guesses and more are made: noise, and pictures with noise.
fn search(draws: &mut Draws) -> Collection {
    let mut collection = Collection::new("search");
    let picture = |draws: &mut Draws| {
        let (width, height, percent) = (draws.between(25, 40), draws.between(25, 40), draws.between(30, 50));
        if draws.chance(75) {
            return Picture::noise(draws, width, height, percent);
        }
        let (picture, noise) = (Picture::drawing(draws, width, height), Picture::noise(draws, width, height, 12));
        Picture::new(width, height, |x, y| picture.has(x, y) != noise.has(x, y))
    };
    collection.fill(100, draws, picture, |reporter, puzzle| reporter.report(puzzle, LIMIT).guesses >= 100);
    collection
}

/// Returns permutations, switches, long and thin puzzles, contradictions, full and empty grids, and noise.
fn odd(draws: &mut Draws) -> Collection {
    let same = |clue: &[usize], count: usize| vec![clue.to_vec(); count];
    let mut all: Vec<Clues> = Vec::new();
    for side in [2, 4, 8, 16, 32, 60] {
        all.push(Clues::new(same(&[1], side), same(&[1], side)));
    }
    // A column too few for the rows.
    for side in [4, 8, 16, 32, 60] {
        let mut columns = same(&[1], side - 1);
        columns.push(Vec::new());
        all.push(Clues::new(same(&[1], side), columns));
    }
    for side in [8, 20, 40, 60] {
        all.push(Clues::new(same(&[1, 1], side), same(&[1, 1], side)));
    }
    // Blocks of two by two cells along the diagonal, of which each has two solutions, apart or beside each other.
    for blocks in [3, 6, 12, 20] {
        let side = 3 * blocks;
        let is_between = |x: usize, y: usize| x % 3 == 2 && y / 3 > x / 3;
        let is_block = |x: usize, y: usize| x / 3 == y / 3 && x % 3 == y % 3 && x % 3 < 2;
        all.push(Picture::new(side, side, |x, y| is_block(x, y) || is_between(x, y) || is_between(y, x)).clues());
    }
    for side in [8, 20, 32] {
        all.push(Picture::new(side, side, |x, y| (x + y) % 2 == 0).clues());
    }
    for length in [16, 64, 128] {
        let columns = (0..length).map(|x| if x % 2 == 0 { vec![1] } else { Vec::new() }).collect();
        all.push(Clues::new(vec![vec![1; length / 2]], columns));
        all.push(Clues::new(vec![vec![1; length / 2]; 2], same(&[1], length)));
        all.push(Clues::new(vec![vec![1; length / 4]; 3], same(&[1], length)));
        all.push(Picture::noise(draws, 128, length / 8, 50).clues());
        all.push(Picture::noise(draws, length / 8, 128, 40).clues());
    }
    // Mostly without a solution: the rows in reverse.
    for side in [20, 40, 60] {
        let mut clues = Picture::noise(draws, side, side, 50).clues();
        clues.rows.reverse();
        all.push(clues);
    }
    all.push(Clues::new(same(&[128], 128), same(&[128], 128)));
    all.push(Clues::new(same(&[], 128), same(&[], 128)));
    all.push(Clues::new(vec![vec![1; 64]; 128], same(&[128], 128)));
    for percent in [35, 50, 65] {
        for side in [30, 60, 80] {
            all.push(Picture::noise(draws, side, side, percent).clues());
        }
    }
    let mut collection = Collection::new("odd");
    for clues in &all {
        collection.offer(clues, None, |_, _| true);
    }
    collection
}

/// Returns a square drawing. Beyond 64 cells a side it is an enlarged one, since lines seldom solve many small shapes.
fn square_drawing(draws: &mut Draws, side: usize) -> Picture {
    let scale = (side + 63) / 64;
    let drawing = Picture::drawing(draws, (side + scale - 1) / scale, (side + scale - 1) / scale);
    let picture = Picture::new(side, side, |x, y| drawing.has(x / scale, y / scale));
    if scale > 1 { picture.smoothed() } else { picture }
}

/// Returns `count` square puzzles of a kind: `pictures` are drawings that lines solve, `noise` has each cell filled with a
/// chance of 50%, and `rough` is noise that is smoothed once. Returns nothing for any other kind.
pub fn drawn(kind: &str, side: usize, count: usize, seed: u64) -> Option<String> {
    let (draws, anything) = (&mut Draws::new(seed), |_: &mut Reporter, _: &Puzzle| true);
    let mut collection = Collection::new("puzzle");
    match kind {
        "pictures" => collection.fill(count, draws, |draws| square_drawing(draws, side), is_solved_by_lines),
        "noise" => collection.fill(count, draws, |draws| Picture::noise(draws, side, side, 50), anything),
        "rough" => collection.fill(count, draws, |draws| Picture::noise(draws, side, side, 50).smoothed(), anything),
        _ => return None,
    }
    Some(collection.text)
}

/// Writes the five collections into a folder.
pub fn generate(seed: u64, folder: &str) -> std::io::Result<()> {
    let kinds: [fn(&mut Draws) -> Collection; 5] = [pictures, large, trials, search, odd];
    for (place, kind) in kinds.into_iter().enumerate() {
        let collection = kind(&mut Draws::new(5 * seed + place as u64));
        std::fs::write(format!("{folder}/{}.txt", collection.name), collection.text)?;
    }
    Ok(())
}
