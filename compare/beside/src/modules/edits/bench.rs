//! Times of edits by the number of points and by degree. Ours check the table at each call; the Rust's are given a valid
//! one alone, and make it in full.
use super::calls::{Case, Edit, edited};
use crate::modules::timed::{Times, clamped, time};
use crate::rng::Rng;
use oracle::BCurve;
use std::hint::black_box;

fn insert(rounds: u32, degree: usize, points: usize, knots: usize) -> Times {
    edit("insert_knots", &[("degree", degree), ("points", points), ("inserted", knots)], rounds, |r, end| {
        Edit::Insert((0..knots).map(|_| r.unit() * end).collect())
    })
}

fn trim(rounds: u32, degree: usize, points: usize) -> Times {
    edit("trim", &[("degree", degree), ("points", points)], rounds, |r, end| {
        Edit::Trim(r.unit() * 0.5 * end, (0.5 + r.unit() * 0.5) * end)
    })
}

fn elevate(rounds: u32, degree: usize, points: usize, by: usize) -> Times {
    edit("elevate_degree", &[("degree", degree), ("points", points), ("by", by)], rounds, |_, _| Edit::Elevate(degree + by))
}

/// Some such edits of a curve with the first two sizes.
fn edit(call: &str, sizes: &[(&str, usize)], rounds: u32, some: impl Fn(&mut Rng, f64) -> Edit) -> Times {
    let (degree, points) = (sizes[0].1, sizes[1].1);
    let mut r = Rng::new(7, (degree * points) as u64);
    let table = clamped(&mut r, degree, points);
    let (made, end) = (table.rust().expect("valid"), table.knots[points]);
    let cases: Vec<Case> = (0..8).map(|_| Case { table: table.clone(), edit: some(&mut r, end) }).collect();
    let most = cases.iter().map(Case::needs).reduce(|a, b| std::array::from_fn(|i| a[i].max(b[i]))).expect("a case");
    let mut runs = most.map(|n| vec![0.0; n]);
    let mut done = true;
    let ours = time(rounds, &cases, |c| {
        let mut lent = black_box(&mut runs).each_mut().map(|r| r.as_mut_slice());
        done &= c.ours(&mut lent) as u32 == 0;
        lent[1][3]
    });
    assert!(done, "{call} was refused");
    let alone = time(rounds, &cases, |c| first_x(&made, &c.edit));
    let full = time(rounds, &cases, |c| c.table.rust().map_or(0.0, |made| first_x(&made, &c.edit)));
    Times::new(call, sizes, ours, alone, Some(full))
}

fn first_x(made: &BCurve, edit: &Edit) -> f64 {
    edited!(made, edit).map_or(0.0, |b| b.points()[1].x)
}

pub fn table(rounds: u32) -> Vec<Times> {
    const SIZES: [(usize, usize); 7] = [(3, 10), (3, 100), (3, 1_000), (1, 100), (5, 100), (10, 100), (20, 100)];
    let mut lines: Vec<Times> = SIZES.map(|(degree, points)| insert(rounds, degree, points, 1)).into();
    lines.extend([10, 100, 1_000].map(|points| insert(rounds, 3, points, 50)));
    lines.extend(SIZES.map(|(degree, points)| trim(rounds, degree, points)));
    lines.extend([10, 100].map(|points| elevate(rounds, 3, points, 2)));
    lines.extend([1, 2, 5, 10].map(|degree| elevate(rounds, degree, 40, 2)));
    lines
}
