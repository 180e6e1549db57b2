//! Every expression of up to so many rows, by the grammar of docs/LANGUAGE.md, 4.1. One name and one number stand for
//! all, and `f` for every field and method.

/// The expressions of each count of rows: those of n rows at n.
type ByRows = Vec<Vec<String>>;

/// Every expression of at most so many rows. Those that call a method on no variable are among them.
pub fn up_to(rows: usize) -> Vec<String> {
    let mut sums = vec![Vec::new()];
    let mut shifts = vec![Vec::new()];
    let mut products = vec![Vec::new()];
    let mut unaries: ByRows = vec![Vec::new()];
    for count in 1..=rows {
        let mut own = primaries(count, &sums);
        own.extend(unaries[count - 1].iter().map(|inner| format!("*{inner}")));
        unaries.push(own);
        grown(&mut products, &unaries, count, &unaries, &["*", "/", "%"]);
        grown(&mut shifts, &products, count, &products, &["<<", ">>"]);
        grown(&mut sums, &shifts, count, &products, &["+", "-"]);
    }
    sums.concat()
}

/// Adds those of `count` rows to a level: those of the level below, or one of its own, a sign and a right side.
fn grown(level: &mut ByRows, below: &ByRows, count: usize, rights: &ByRows, signs: &[&str]) {
    let mut own = below[count].clone();
    for left_rows in 1..count.saturating_sub(1) {
        for left in &level[left_rows] {
            for right in &rights[count - 1 - left_rows] {
                own.extend(signs.iter().map(|sign| format!("{left} {sign} {right}")));
            }
        }
    }
    level.push(own);
}

/// A number, a name or a group, and fields and calls behind it.
fn primaries(count: usize, sums: &ByRows) -> Vec<String> {
    let mut made = Vec::new();
    for operand_rows in 1..=count {
        let operands = match operand_rows {
            1 => vec!["a".to_string(), "1".to_string()],
            2 => Vec::new(),
            _ => sums[operand_rows - 2]
                .iter()
                .map(|inner| format!("({inner})"))
                .collect(),
        };
        for operand in &operands {
            let behind = suffixes(count - operand_rows, sums);
            made.extend(behind.iter().map(|suffix| format!("{operand}{suffix}")));
        }
    }
    made
}

/// Fields and calls, of exactly so many rows.
fn suffixes(count: usize, sums: &ByRows) -> Vec<String> {
    if count == 0 {
        return vec![String::new()];
    }
    let mut firsts: Vec<(usize, String)> = vec![(2, ".f".to_string())];
    for rows in 0..count.saturating_sub(3) {
        let lists = arguments(rows, sums);
        firsts.extend(lists.iter().map(|list| (4 + rows, format!(".f({list})"))));
    }
    let mut made = Vec::new();
    for (rows, first) in firsts.iter().filter(|(rows, _)| *rows <= count) {
        let behind = suffixes(count - rows, sums);
        made.extend(behind.iter().map(|suffix| format!("{first}{suffix}")));
    }
    made
}

/// Lists of arguments of exactly so many rows, commas counted.
fn arguments(count: usize, sums: &ByRows) -> Vec<String> {
    let mut made = if count == 0 {
        vec![String::new()]
    } else {
        sums[count].clone()
    };
    for first_rows in 1..count.saturating_sub(1) {
        for first in &sums[first_rows] {
            let others = arguments(count - 1 - first_rows, sums);
            made.extend(others.iter().map(|rest| format!("{first},{rest}")));
        }
    }
    made
}
