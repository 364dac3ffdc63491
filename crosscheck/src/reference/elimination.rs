//! Gaussian elimination: one solution, not all zero, of a homogeneous system.

use super::field::{inverse, mul, sub};

/// A nonzero solution of `rows` · x = 0 in `unknowns` unknowns, if there is one.
pub fn kernel_vector(mut rows: Vec<Vec<u32>>, unknowns: usize) -> Option<Vec<u32>> {
    let mut pivots = Vec::new();
    for column in 0..unknowns {
        let done = pivots.len();
        match (done..rows.len()).find(|r| rows[*r][column] != 0) {
            Some(found) => {
                rows.swap(done, found);
                clear_column(&mut rows, done, column);
                pivots.push(column);
            }
            None => return Some(solution(&rows, &pivots, column, unknowns)),
        }
    }
    None
}

/// Makes the pivot 1 and the rest of its column 0.
fn clear_column(rows: &mut [Vec<u32>], pivot: usize, column: usize) {
    let scale = inverse(rows[pivot][column]);
    for cell in rows[pivot].iter_mut() {
        *cell = mul(*cell, scale);
    }
    let source = rows[pivot].clone();
    for (r, row) in rows.iter_mut().enumerate() {
        let factor = row[column];
        if r != pivot && factor != 0 {
            for (cell, s) in row.iter_mut().zip(&source).skip(column) {
                *cell = sub(*cell, mul(factor, *s));
            }
        }
    }
}

/// The solution with 1 at the first column without a pivot and 0 at the later ones.
fn solution(rows: &[Vec<u32>], pivots: &[usize], free: usize, unknowns: usize) -> Vec<u32> {
    let mut x = vec![0; unknowns];
    x[free] = 1;
    for (r, column) in pivots.iter().enumerate() {
        x[*column] = sub(0, rows[r][free]);
    }
    x
}
