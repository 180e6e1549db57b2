//! Figures as bars, as wide as the terminal.

use super::{lines, number_width, Line, LABEL};
use spoonharbor::{Figure, Tally};
use std::io::{self, Write};

/// A cell that is filled by one eighth to seven.
const EIGHTHS: [char; 7] = ['▏', '▎', '▍', '▌', '▋', '▊', '▉'];
const WHOLE: char = '█';

/// The bars that are drawn to one scale.
#[derive(Clone, Copy, PartialEq, Eq)]
enum Scale {
    Units,
    Maps,
    Others,
}

/// The scale of a figure's bar. The sum of max has no bar, nor have the sums of units and of maps: they are no counts among others.
fn scale(line: &Line) -> Option<Scale> {
    match line.figure? {
        Figure::Units(_) => Some(Scale::Units),
        Figure::Maps(_) => Some(Scale::Maps),
        Figure::Max => None,
        _ => Some(Scale::Others),
    }
}

/// Prints a tally's lines with a bar behind each count. The longest bar of a scale ends with the last of so many columns.
pub fn print_bars(tally: &Tally, columns: usize, out: &mut impl Write) -> io::Result<()> {
    let lines = lines(tally);
    let width = number_width(&lines);
    let cells = columns.saturating_sub(LABEL + width + 2);
    for line in &lines {
        let Line { label, count, .. } = line;
        let bar = scale(line).map(|scale| drawn(*count, longest(&lines, scale), cells));
        let bar = match bar {
            Some(bar) if !bar.is_empty() => format!(" {bar}"),
            _ => String::new(),
        };
        writeln!(out, "{label:<LABEL$} {count:>width$}{bar}")?;
    }
    Ok(())
}

/// The largest count of a scale.
fn longest(lines: &[Line], wanted: Scale) -> u128 {
    let of_it = lines.iter().filter(|line| scale(line) == Some(wanted));
    of_it.map(|line| line.count).max().unwrap_or(0)
}

/// A bar of so many cells for the largest count, in eighths of a cell. A count that is not 0 has at least one.
fn drawn(count: u128, most: u128, cells: usize) -> String {
    if count == 0 || cells == 0 {
        return String::new();
    }
    let eighths = (count * (8 * cells as u128) / most.max(1)).max(1) as usize;
    let mut bar: String = std::iter::repeat_n(WHOLE, eighths / 8).collect();
    if let Some(rest) = (eighths % 8).checked_sub(1) {
        bar.push(EIGHTHS[rest]);
    }
    bar
}

#[cfg(test)]
mod tests {
    use super::*;

    #[test]
    fn bars_fill_their_cells() {
        assert_eq!(drawn(0, 9, 10), "");
        assert_eq!(drawn(9, 9, 3), "███");
        assert_eq!(drawn(1, 2, 3), "█▌");
        assert_eq!(drawn(7, 8, 1), "▉");
        assert_eq!(drawn(1, 1_000_000, 3), "▏");
        assert_eq!(drawn(5, 9, 0), "");
        let most = u128::from(u64::MAX);
        assert_eq!(drawn(most, most, 300).chars().count(), 300);
    }
}
