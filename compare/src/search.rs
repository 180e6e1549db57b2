//! Search for the first number that has a property which all later ones keep.

/// The least number of `0..=last` for which `holds` is true, given that `holds`
/// is true for `last` and stays true once it is.
pub fn least(last: usize, holds: impl Fn(usize) -> bool) -> usize {
    let (mut low, mut high) = (0, last);
    while low < high {
        let middle = low + (high - low) / 2;
        if holds(middle) {
            high = middle;
        } else {
            low = middle + 1;
        }
    }
    low
}

#[cfg(test)]
mod tests {
    use super::*;

    #[test]
    fn finds_the_first_of_a_rising_property() {
        for wanted in 0..=9 {
            assert_eq!(least(9, |n| n >= wanted), wanted);
        }
    }
}
