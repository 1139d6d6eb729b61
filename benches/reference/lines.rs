//! Deduction of one line: which of its cells are filled in some placing of its clue, and which are blank in some.

use crate::bits::BitSet;

/// The greatest number of levels of a bit set.
const LEVELS: usize = 9;

/// A run of filled cells, of length 2^level + rest with rest below 2^level.
#[derive(Clone, Copy)]
pub struct Run {
    pub length: u32,
    level: u16,
    rest: u16,
}

impl Run {
    pub fn new(length: u16) -> Run {
        let level = 15 - length.leading_zeros() as u16;
        Run { length: u32::from(length), level, rest: length - (1 << level) }
    }
}

/// Returns by how much a line is longer than its runs need, if they fit.
pub fn slack(runs: &[Run], len: u32) -> Option<u32> {
    len.checked_sub(runs.iter().map(|run| run.length + 1).sum::<u32>().saturating_sub(1))
}

/// What is known of a line: its filled cells and its blank ones.
#[derive(Clone, Copy, Default, PartialEq)]
pub struct Cells<S> {
    pub filled: S,
    pub blank: S,
}

impl<S: BitSet> Cells<S> {
    pub fn known(self) -> S {
        self.filled | self.blank
    }

    pub fn with(self, more: Cells<S>) -> Cells<S> {
        Cells { filled: self.filled | more.filled, blank: self.blank | more.blank }
    }

    /// Returns what this knows and `other` doesn't.
    pub fn beyond(self, other: Cells<S>) -> Cells<S> {
        Cells { filled: self.filled & !other.filled, blank: self.blank & !other.blank }
    }

    pub fn is_within(self, other: Cells<S>) -> bool {
        self.beyond(other).known().is_empty()
    }
}

/// Returns `sources` and the `free` indices above each, up to the end of its stretch, through which the sum carries.
#[inline(always)]
fn flood<S: BitSet>(sources: S, free: S) -> S {
    free & !free.wrapping_add(sources) | sources
}

/// A pass over a line's runs, from its first cell on.
struct PrefixScan<S> {
    /// For each level, from which cell on so many cells aren't known to be blank.
    windows: [S; LEVELS],
    /// The cells that aren't known to be filled.
    free: S,
    /// The gap after the runs so far: which of these can be the next blank cell.
    gap: S,
    /// Before the first run the first cell, where it can start; then nothing.
    first: S,
}

impl<S: BitSet> PrefixScan<S> {
    /// Begins at the cell `first`. Those in `open` aren't known to be blank, those in `free` not known to be filled.
    #[inline(always)]
    fn new(first: S, open: S, free: S) -> PrefixScan<S> {
        let mut windows = [open; LEVELS];
        for level in 1..S::LEVELS {
            let shorter = windows[level - 1];
            windows[level] = shorter & shorter >> (1 << (level - 1));
        }
        PrefixScan { windows, free, gap: flood(first & free, free), first }
    }

    /// Goes over the next run, and returns where it can end.
    #[inline(always)]
    fn next(&mut self, run: Run) -> S {
        let window = self.windows[run.level as usize];
        let starts = (self.gap << 1 | self.first) & window & window >> u32::from(run.rest);
        let ends = starts << (run.length - 1);
        self.gap = flood(ends << 1 & self.free, self.free);
        self.first = S::default();
        ends
    }
}

/// For each run the cells where it can end and the gap after it, as far as the cells before allow, and that gap as far as the
/// cells after allow. A buffer, so that deducing a line allocates nothing.
pub struct Scans<S>(Vec<(S, S, S)>);

impl<S: BitSet> Scans<S> {
    pub fn new() -> Scans<S> {
        Scans(vec![(S::default(), S::default(), S::default()); 128])
    }
}

/// Returns what `support` does, for a clue of one run.
#[inline(always)]
fn single_support<S: BitSet>(run: Run, len: u32, cells: Cells<S>) -> Option<Cells<S>> {
    let all = S::prefix(len);
    let mut starts = all & !cells.blank;
    for level in 0..run.level {
        starts &= starts >> (1 << level);
    }
    starts &= starts >> u32::from(run.rest);
    if !cells.filled.is_empty() {
        let (first, last) = (cells.filled.trailing_zeros(), cells.filled.last_index());
        starts &= S::prefix(first + 1);
        if last >= run.length {
            starts &= !S::prefix(last + 1 - run.length);
        }
    }
    if starts.is_empty() {
        return None;
    }
    let (least_end, greatest) = (starts.trailing_zeros() + run.length, starts.last_index());
    let certain = if greatest < least_end { S::prefix(least_end) & !(S::prefix(greatest + 1) >> 1) } else { S::default() };
    let mut filled = starts;
    for level in 0..run.level {
        filled |= filled << (1 << level);
    }
    Some(Cells { filled: filled | filled << u32::from(run.rest), blank: all & !certain })
}

/// Returns the support of a line of `len` cells: those that are filled in some placing of `runs`, and those that are blank in
/// some; `None` if there is no placing.
#[inline(always)]
pub fn support<S: BitSet>(runs: &[Run], len: u32, cells: Cells<S>, scans: &mut Scans<S>) -> Option<Cells<S>> {
    let all = S::prefix(len);
    if runs.is_empty() {
        return if cells.filled.is_empty() { Some(Cells { filled: S::default(), blank: all }) } else { None };
    }
    if let [run] = runs {
        return single_support(*run, len, cells);
    }
    let (open, free) = (all & !cells.blank, all & !cells.filled);
    let found = &mut scans.0[..runs.len()];

    // The mirrored line ends at the last bit, so that mirroring takes no shift.
    let mut scan = PrefixScan::new(S::single(S::BITS - len), open.reverse_bits(), free.reverse_bits());
    for (run, (_, _, after)) in runs.iter().zip(&mut *found).rev() {
        *after = scan.gap.reverse_bits();
        scan.next(*run);
    }
    // A cell is blank in some placing if for some number of runs it is in the gap from both sides.
    let mut blank = scan.gap.reverse_bits();
    let mut scan = PrefixScan::new(S::ONE, open, free);
    blank &= scan.gap;
    for (run, (ends, gap, _)) in runs.iter().zip(&mut *found) {
        *ends = scan.next(*run);
        *gap = scan.gap;
    }

    // A run ends at a place in some placing if the next cell can be blank, or the line ends there. From there it covers, in
    // two pieces that overlap, as many cells downwards as it is long.
    let mut covered = [S::default(); LEVELS];
    let mut whole = S::default();
    for (i, (run, (ends, gap, after))) in runs.iter().zip(&*found).enumerate() {
        blank |= *gap & *after;
        let edge = if i + 1 == runs.len() { S::single(len - 1) } else { S::default() };
        whole = *ends & (*after >> 1 | edge);
        covered[run.level as usize] |= whole | whole >> u32::from(run.rest);
    }
    if whole.is_empty() {
        return None;
    }
    let mut filled = S::default();
    for level in (1..S::LEVELS).rev() {
        filled |= covered[level];
        filled |= filled >> (1 << (level - 1));
    }
    Some(Cells { filled: filled | covered[0], blank })
}

/// Returns what all placings of `runs` share on a line of which nothing is known.
pub fn overlaps<S: BitSet>(runs: &[Run], len: u32, slack: u32) -> Cells<S> {
    let mut cells = Cells::default();
    if runs.is_empty() {
        return Cells { filled: cells.filled, blank: S::prefix(len) };
    }
    let mut start = 0;
    for run in runs {
        if run.length > slack {
            cells.filled |= S::prefix(run.length - slack) << (start + slack);
        }
        start += run.length + 1;
    }
    if slack == 0 {
        cells.blank = S::prefix(len) & !cells.filled;
    }
    cells
}
