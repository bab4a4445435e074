//! Every row of digits, in counting order.

/// Visits every row of `length` digits below `base`.
pub fn each<E>(
    base: usize,
    length: usize,
    visit: &mut dyn FnMut(&[usize]) -> Result<(), E>,
) -> Result<(), E> {
    let mut digits = vec![0; length];
    loop {
        visit(&digits)?;
        if !advance(&mut digits, base) {
            return Ok(());
        }
    }
}

// The next row, or false after the last.
fn advance(digits: &mut [usize], base: usize) -> bool {
    for digit in digits.iter_mut().rev() {
        *digit += 1;
        if *digit < base {
            return true;
        }
        *digit = 0;
    }
    false
}

#[cfg(test)]
mod tests {
    use super::each;

    #[test]
    fn rows_come_once_each_in_order() {
        let mut rows = Vec::new();
        let visited: Result<(), ()> = each(3, 2, &mut |digits| {
            rows.push((digits[0], digits[1]));
            Ok(())
        });
        assert!(visited.is_ok());
        let expected: Vec<_> = (0..9).map(|row| (row / 3, row % 3)).collect();
        assert_eq!(rows, expected);
    }

    #[test]
    fn the_empty_row_comes_once() {
        let mut rows = 0;
        let _: Result<(), ()> = each(5, 0, &mut |_| {
            rows += 1;
            Ok(())
        });
        assert_eq!(rows, 1);
    }
}
