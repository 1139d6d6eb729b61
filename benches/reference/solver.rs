//! Propagation, trials, the search, and the report, by `docs/solving.md`.

use crate::lines::{overlaps, slack, support, Cells, Scans, Run};
use crate::text::Puzzle;
use crate::bits::{BitSet, Wide};
use std::ops::Range;

pub struct Report {
    /// `none`, `one`, `several` or `unsettled`.
    pub verdict: &'static str,
    /// `line`, `trials` or `search`.
    pub grade: &'static str,
    pub line_known: u32,
    pub trial_known: u32,
    pub guesses: u32,
    /// The rows of each solution found, `#` for a filled cell and `.` for a blank one.
    pub solutions: Vec<Vec<Vec<u8>>>,
}

/// The cache keeps 2 to this many deductions.
const SLOT_BITS: u32 = 16;

/// Until so many trials in succession were alive, only cells with known neighbours are tried: their colours are refuted
/// most.
const CALM: u32 = 16;

/// What was deduced on a line with these cells; nothing if it is dead.
#[derive(Clone, Copy, Default)]
struct Cached<S> {
    line: u64,
    cells: Cells<S>,
    found: Option<Cells<S>>,
}

/// Buffers that serve one puzzle after another.
pub struct Buffers<S> {
    scans: Scans<S>,
    slots: Vec<Cached<S>>,
    /// The number of puzzles so far, so that no deduction of another puzzle's line is taken.
    puzzles: u64,
}

impl<S: BitSet> Buffers<S> {
    pub fn new() -> Buffers<S> {
        Buffers { scans: Scans::new(), slots: Vec::new(), puzzles: 0 }
    }
}

struct Line {
    /// Which runs are its own.
    runs: Range<usize>,
    len: u32,
    slack: u32,
}

/// The cells of all lines: the rows from the top, then the columns from the left. Each cell is in both of its lines.
type Grid<S> = Vec<Cells<S>>;

/// An axis: the number of its first line, and that of the first line that crosses these.
struct Axis {
    first: usize,
    first_crossing: usize,
}

/// What an alive trial assigned. Each of these colours is consistent, as long as nothing is assigned that changes the trial.
struct Witness<S> {
    rows: S,
    columns: S,
    /// By rows.
    cells: Vec<(usize, Cells<S>)>,
}

impl<S: BitSet> Witness<S> {
    /// Returns what was assigned in `closed` since it was `grid`. Only these rows may differ.
    fn of(closed: &Grid<S>, grid: &Grid<S>, rows: S) -> Witness<S> {
        let mut witness = Witness { rows: S::default(), columns: S::default(), cells: Vec::new() };
        rows.each(|y| {
            let more = closed[y as usize].beyond(grid[y as usize]);
            if !more.known().is_empty() {
                witness.rows |= S::single(y);
                witness.columns |= more.known();
                witness.cells.push((y as usize, more));
            }
        });
        witness
    }

    /// Adds its colours to those that are consistent.
    fn add_to(&self, consistent: &mut [Cells<S>]) {
        for (y, cells) in &self.cells {
            consistent[*y] = consistent[*y].with(*cells);
        }
    }

    /// Returns whether the trial would still be alive after the grid was assigned this: if it lies in none of the trial's rows
    /// and columns, both together have no dirty line; or the trial had assigned all of it.
    fn holds_after(&self, assigned: &Witness<S>) -> bool {
        let is_apart = (self.rows & assigned.rows).is_empty() && (self.columns & assigned.columns).is_empty();
        let has = |y, more: Cells<S>| self.cells.iter().any(|(own, cells)| *own == y && more.is_within(*cells));
        is_apart || assigned.cells.iter().all(|(y, more)| has(*y, *more))
    }
}

struct Solver<'b, S> {
    buffers: &'b mut Buffers<S>,
    runs: Vec<Run>,
    lines: Vec<Line>,
    width: usize,
    height: usize,
    is_caching: bool,
    /// The touched rows and columns: those deduced or written since these sets were last emptied.
    rows: S,
    columns: S,
}

impl<'b, S: BitSet> Solver<'b, S> {
    /// Returns a solver of the puzzle, if all its clues fit their lines.
    fn new(buffers: &'b mut Buffers<S>, puzzle: &Puzzle) -> Option<Solver<'b, S>> {
        let (width, height) = (puzzle.width, puzzle.height);
        let (mut runs, mut lines) = (Vec::with_capacity(4 * (width + height)), Vec::with_capacity(width + height));
        for line in 0..height + width {
            let (len, first) = (if line < height { width } else { height } as u32, runs.len());
            runs.extend(puzzle.clue(line).iter().map(|&number| Run::new(number)));
            lines.push(Line { runs: first..runs.len(), len, slack: slack(&runs[first..], len)? });
        }
        buffers.puzzles += 1;
        let none = S::default();
        Some(Solver { buffers, runs, lines, width, height, is_caching: false, rows: none, columns: none })
    }

    /// Returns what is deduced on a line with these cells, or `None` if it is dead.
    #[inline(always)]
    fn deduce(&mut self, line: usize, cells: Cells<S>) -> Option<Cells<S>> {
        let Line { runs, len, .. } = &self.lines[line];
        let can_be = support(&self.runs[runs.clone()], *len, cells, &mut self.buffers.scans)?;
        let certain = Cells { filled: can_be.filled & !can_be.blank, blank: can_be.blank & !can_be.filled };
        Some(certain.beyond(cells))
    }

    /// Returns the same, without deducing it if it is in the cache.
    fn deduce_cached(&mut self, line: usize, cells: Cells<S>) -> Option<Cells<S>> {
        let tag = self.buffers.puzzles << 9 | line as u64;
        let mixed = cells.filled.folded().wrapping_mul(0x9E37_79B9_7F4A_7C15)
            ^ cells.blank.folded().wrapping_mul(0xD1B5_4A32_D192_ED03).rotate_left(29)
            ^ tag.wrapping_mul(0x8CB9_2BA7_2F3D_8DD7);
        let slot = (mixed.wrapping_mul(0x2545_F491_4F6C_DD1D) >> (64 - SLOT_BITS)) as usize;
        let cached = &self.buffers.slots[slot];
        if cached.line == tag && cached.cells == cells {
            return cached.found;
        }
        let found = self.deduce(line, cells);
        self.buffers.slots[slot] = Cached { line: tag, cells, found };
        found
    }

    /// Deduces the dirty lines of an axis, and adds the crossing lines of assigned cells to `crossed`. Returns false if a line
    /// is dead.
    fn sweep(&mut self, grid: &mut Grid<S>, axis: &Axis, mut dirty: S, crossed: &mut S) -> bool {
        while !dirty.is_empty() {
            let i = dirty.pop();
            let line = axis.first + i as usize;
            let cells = grid[line];
            let found = if self.is_caching { self.deduce_cached(line, cells) } else { self.deduce(line, cells) };
            let found = match found {
                Some(found) => found,
                None => return false,
            };
            if found.known().is_empty() {
                continue;
            }
            grid[line] = cells.with(found);
            *crossed |= found.known();
            let (crossing, own) = (&mut grid[axis.first_crossing..], S::single(i));
            found.filled.each(|k| crossing[k as usize].filled |= own);
            found.blank.each(|k| crossing[k as usize].blank |= own);
        }
        true
    }

    /// Propagates from these dirty rows and columns. Returns whether the grid is alive.
    fn propagate(&mut self, grid: &mut Grid<S>, mut rows: S, mut columns: S) -> bool {
        let rows_axis = Axis { first: 0, first_crossing: self.height };
        let columns_axis = Axis { first: self.height, first_crossing: 0 };
        while !rows.is_empty() || !columns.is_empty() {
            let is_alive = self.sweep(grid, &rows_axis, rows, &mut columns);
            self.rows |= rows;
            rows = S::default();
            let is_alive = is_alive && self.sweep(grid, &columns_axis, columns, &mut rows);
            self.columns |= columns;
            columns = S::default();
            if !is_alive {
                self.rows |= rows;
                return false;
            }
        }
        true
    }

    /// Returns a grid of which nothing is known.
    fn new_grid(&self) -> Grid<S> {
        vec![Cells::default(); self.lines.len()]
    }

    /// Propagates from a grid of which nothing is known. Returns whether it is alive.
    fn propagate_all(&mut self, grid: &mut Grid<S>) -> bool {
        let height = self.height;
        let (mut rows, mut columns) = (S::default(), S::default());
        for (line, Line { runs, len, slack }) in self.lines.iter().enumerate() {
            let cells = overlaps(&self.runs[runs.clone()], *len, *slack);
            let (i, first_crossing) = if line < height { (line, height) } else { (line - height, 0) };
            if line < height {
                columns |= cells.known();
            } else {
                rows |= cells.known();
            }
            grid[line] = grid[line].with(cells);
            let (crossing, own) = (&mut grid[first_crossing..], S::single(i as u32));
            cells.filled.each(|k| crossing[k as usize].filled |= own);
            cells.blank.each(|k| crossing[k as usize].blank |= own);
        }
        let is_alive = grid[..height].iter().all(|row| (row.filled & row.blank).is_empty());
        is_alive && self.propagate(grid, rows, columns)
    }

    /// Assigns an unknown cell of a grid without dirty lines its colour, and propagates. Returns whether the grid is alive.
    fn assign(&mut self, grid: &mut Grid<S>, (x, y): (usize, usize), is_filled: bool) -> bool {
        let (column, row) = (S::single(x as u32), S::single(y as u32));
        for (line, cell) in [(y, column), (self.height + x, row)] {
            let cells = &mut grid[line];
            *(if is_filled { &mut cells.filled } else { &mut cells.blank }) |= cell;
        }
        self.propagate(grid, row, column)
    }

    /// Returns the unknown cells of a row.
    fn unknown(&self, grid: &Grid<S>, y: usize) -> S {
        S::prefix(self.width as u32) & !grid[y].known()
    }

    /// Returns the cells of a row that have at least two known neighbours.
    fn with_known_neighbours(&self, grid: &Grid<S>, y: usize) -> S {
        let (all, known) = (S::prefix(self.width as u32), grid[y].known());
        let row = |y: usize| if y < self.height { grid[y].known() } else { all };
        let (left, right) = (known << 1 | S::ONE, known >> 1 | S::single(self.width as u32 - 1));
        let (above, below) = (row(y.wrapping_sub(1)), row(y + 1));
        left & right | above & below | (left | right) & (above | below)
    }

    /// Tries colours until each that is left is consistent. Returns whether the grid is alive.
    fn close_trials(&mut self, grid: &mut Grid<S>) -> bool {
        let height = self.height;
        // The consistent colours of each row's cells.
        let mut consistent = vec![Cells::default(); height];
        let mut witnesses: Vec<Witness<S>> = Vec::new();
        let mut trial = grid.clone();
        self.forget_touched();
        let (mut y, mut idle_rows, mut alive_trials) = (0, 0, 0);
        loop {
            let mut unknown = self.unknown(grid, y);
            if alive_trials < CALM {
                unknown &= self.with_known_neighbours(grid, y);
            }
            let untried = Cells { filled: unknown, blank: unknown }.beyond(consistent[y]);
            if untried.known().is_empty() {
                y = (y + 1) % height;
                idle_rows += 1;
                if idle_rows == height {
                    if alive_trials >= CALM {
                        return true;
                    }
                    (alive_trials, idle_rows) = (CALM, 0);
                }
                continue;
            }
            idle_rows = 0;
            let x = untried.known().trailing_zeros();
            let (cell, is_filled) = ((x as usize, y), untried.filled.contains(x));
            if self.assign(&mut trial, cell, is_filled) {
                let witness = Witness::of(&trial, grid, self.rows);
                witness.add_to(&mut consistent);
                witnesses.push(witness);
                alive_trials += 1;
            } else {
                alive_trials = 0;
                self.copy_touched(grid, &mut trial);
                if !self.assign(grid, cell, !is_filled) {
                    return false;
                }
                let assigned = Witness::of(grid, &trial, self.rows);
                witnesses.retain(|witness| witness.holds_after(&assigned));
                consistent.fill(Cells::default());
                for witness in &witnesses {
                    witness.add_to(&mut consistent);
                }
            }
            self.copy_touched(grid, &mut trial);
        }
    }

    fn forget_touched(&mut self) {
        (self.rows, self.columns) = (S::default(), S::default());
    }

    /// Copies the touched lines, so that grids that differed in these alone are the same.
    fn copy_touched(&mut self, from: &Grid<S>, to: &mut Grid<S>) {
        self.rows.each(|y| to[y as usize] = from[y as usize]);
        self.columns.each(|x| to[self.height + x as usize] = from[self.height + x as usize]);
        self.forget_touched();
    }

    fn known(&self, grid: &Grid<S>) -> u32 {
        grid[..self.height].iter().map(|row| row.known().count_ones()).sum()
    }

    fn solution(&self, grid: &Grid<S>) -> Vec<Vec<u8>> {
        let row = |cells: &Cells<S>| {
            let mut row = vec![b'.'; self.width];
            cells.filled.each(|x| row[x as usize] = b'#');
            row
        };
        grid[..self.height].iter().map(row).collect()
    }

    /// Returns the first unknown cell, if the rows before `from` are known.
    fn first_unknown(&self, grid: &Grid<S>, from: usize) -> Option<(usize, usize)> {
        let y = (from..self.height).find(|&y| !self.unknown(grid, y).is_empty())?;
        Some((self.unknown(grid, y).trailing_zeros() as usize, y))
    }

    /// Searches from a grid without dirty lines, with at most `limit` guesses.
    fn search(&mut self, mut grid: Grid<S>, limit: u32, report: &mut Report) {
        // The grids before each filled guess whose blank guess is still to come, and grids that are no longer needed.
        let (mut branches, mut spare): (Vec<(Grid<S>, (usize, usize))>, Vec<Grid<S>>) = (Vec::new(), Vec::new());
        let (mut is_alive, mut from) = (true, 0);
        loop {
            let next = if is_alive { self.first_unknown(&grid, from) } else { None };
            if is_alive && next.is_none() {
                report.solutions.push(self.solution(&grid));
            }
            if report.solutions.len() == 2 || (next.is_none() && branches.is_empty()) {
                break;
            }
            if report.guesses == limit {
                report.verdict = "unsettled";
                return;
            }
            report.guesses += 1;
            let cell = match next {
                Some(cell) => {
                    let mut before = spare.pop().unwrap_or_default();
                    before.clone_from(&grid);
                    branches.push((before, cell));
                    cell
                }
                None => {
                    let (before, cell) = branches.pop().unwrap();
                    spare.push(std::mem::replace(&mut grid, before));
                    cell
                }
            };
            from = cell.1;
            is_alive = self.assign(&mut grid, cell, next.is_some());
        }
        report.verdict = ["none", "one", "several"][report.solutions.len()];
    }

    fn report(&mut self, limit: u32, report: &mut Report) {
        let mut grid = self.new_grid();
        if !self.propagate_all(&mut grid) {
            return;
        }
        let cells = (self.width * self.height) as u32;
        report.line_known = self.known(&grid);
        if report.line_known < cells {
            report.grade = "trials";
            self.buffers.slots.resize(1 << SLOT_BITS, Cached::default());
            self.is_caching = true;
            if !self.close_trials(&mut grid) {
                return;
            }
        }
        report.trial_known = self.known(&grid);
        if report.trial_known < cells {
            report.grade = "search";
        }
        self.search(grid, limit, report);
    }
}

fn report_in<S: BitSet>(buffers: &mut Buffers<S>, puzzle: &Puzzle, limit: u32) -> Report {
    let mut report =
        Report { verdict: "none", grade: "line", line_known: 0, trial_known: 0, guesses: 0, solutions: Vec::new() };
    if let Some(mut solver) = Solver::new(buffers, puzzle) {
        solver.report(limit, &mut report);
    }
    report
}

fn line_known_in<S: BitSet>(buffers: &mut Buffers<S>, puzzle: &Puzzle) -> u32 {
    Solver::new(buffers, puzzle).map_or(0, |mut solver| {
        let mut grid = solver.new_grid();
        if solver.propagate_all(&mut grid) { solver.known(&grid) } else { 0 }
    })
}

/// A reporter on one puzzle after another, in the narrowest bit sets that hold its lines.
pub struct Reporter {
    narrow: Buffers<u64>,
    middle: Buffers<u128>,
    wide: Buffers<Wide>,
}

impl Reporter {
    pub fn new() -> Reporter {
        Reporter { narrow: Buffers::new(), middle: Buffers::new(), wide: Buffers::new() }
    }

    pub fn report(&mut self, puzzle: &Puzzle, limit: u32) -> Report {
        match puzzle.width.max(puzzle.height) {
            0..=63 => report_in(&mut self.narrow, puzzle, limit),
            64..=128 => report_in(&mut self.middle, puzzle, limit),
            _ => report_in(&mut self.wide, puzzle, limit),
        }
    }

    /// Returns how many cells line logic makes known.
    pub fn line_known(&mut self, puzzle: &Puzzle) -> u32 {
        match puzzle.width.max(puzzle.height) {
            0..=63 => line_known_in(&mut self.narrow, puzzle),
            64..=128 => line_known_in(&mut self.middle, puzzle),
            _ => line_known_in(&mut self.wide, puzzle),
        }
    }
}
