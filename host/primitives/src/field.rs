//! Document 01's section "Fragments" by another way than the library's and the second program's: the polynomial of each byte position by
//! solving for its coefficients. No table and no weight; the field is the second program's.
use second::field::{inverse, product};

/// Adds `factor` times `from` to `to`, element by element.
fn add_scaled(to: &mut [u8], from: &[u8], factor: u8) {
    for (x, &y) in to.iter_mut().zip(from) {
        *x ^= product(factor, y);
    }
}

/// The coefficients, lowest first, of the polynomials of degree below `points.len()` through `runs[i]` at `points[i]`, one polynomial for
/// each byte position: elimination on the rows 1, p, p^2, .. | run.
fn coefficients(points: &[u8], runs: &[Vec<u8>]) -> Vec<Vec<u8>> {
    let m = points.len();
    let mut rows: Vec<Vec<u8>> = Vec::new();
    for (&p, run) in points.iter().zip(runs) {
        let mut row = vec![1];
        while row.len() < m {
            row.push(product(row[row.len() - 1], p));
        }
        row.extend_from_slice(run);
        rows.push(row);
    }
    for column in 0..m {
        let pivot = (column..m).find(|&r| rows[r][column] != 0).expect("distinct points give a solution");
        rows.swap(column, pivot);
        let factor = inverse(rows[column][column]);
        let scaled: Vec<u8> = rows[column].iter().map(|&x| product(factor, x)).collect();
        for (r, row) in rows.iter_mut().enumerate() {
            if r != column {
                let factor = row[column];
                add_scaled(row, &scaled, factor);
            }
        }
        rows[column] = scaled;
    }
    rows.into_iter().map(|row| row[m..].to_vec()).collect()
}

/// The values at `x` of the polynomials with these coefficients.
fn at(coefficients: &[Vec<u8>], x: u8) -> Vec<u8> {
    let mut values = vec![0; coefficients[0].len()];
    for row in coefficients.iter().rev() {
        values = values.iter().zip(row).map(|(&v, &c)| product(v, x) ^ c).collect();
    }
    values
}

/// The values at the points 0 to `count` - 1, one run after another, of the polynomials through `runs[i]` at `points[i]`.
pub fn runs_through(points: &[u8], runs: &[Vec<u8>], count: usize) -> Vec<u8> {
    let polynomials = coefficients(points, runs);
    (0..count as u8).flat_map(|x| at(&polynomials, x)).collect()
}
