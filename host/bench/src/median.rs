//! Medians of measured times.

/// The median, in place: the middle one in order of size, and the upper of the two where their number is even.
pub fn median(times: &mut [f64]) -> Option<f64> {
    times.sort_by(f64::total_cmp);
    times.get(times.len() / 2).copied()
}

#[cfg(test)]
mod tests {
    use super::*;

    #[test]
    fn outliers_do_not_move_it() {
        assert_eq!(median(&mut [3.0, 900.0, 1.0, 2.0, 4.0]), Some(3.0));
        assert_eq!(median(&mut [2.0, 1.0]), Some(2.0));
        assert_eq!(median(&mut []), None);
    }
}
