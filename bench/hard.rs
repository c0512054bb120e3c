//! Sets that ask much of a search, a tree or a pair of large cells: none of them is like the others.
use original::random::{count, Random};

/// A kind of set: its name, channels, tolerance, `min_points`, and how its counts are made.
pub struct Kind {
    pub name: &'static str,
    pub channels: usize,
    pub t: f64,
    pub min_points: usize,
    pub make: fn(&mut Random, usize) -> Vec<i16>,
}

pub const KINDS: &[Kind] = &[
    kind("one cell", 4, 1000.0, 4, one_cell),
    kind("one cell, and noise around it", 4, 1000.0, 4, quiet),
    kind("one frame again and again", 4, 1.0, 4, same),
    kind("64 frames again and again", 4, 100.0, 4, copies),
    kind("cells that list each other", 4, 1000.0, 4, ball),
    kind("the same, none core", 4, 1000.0, 40000, ball),
    kind("a lattice, one frame a cell", 4, 16.0, 4, lattice),
    kind("the same, none core", 4, 16.0, 200, lattice),
    kind("two cells that touch", 4, 2000.0, 4, touching),
    kind("two cells out of reach", 4, 2000.0, 4, out_of_reach),
    kind("two thin cells out of reach", 4, 2000.0, 4, thin_out_of_reach),
    kind("two cells between t and the far reach", 4, 2000.0, 4, between),
    kind("two diagonals out of reach", 2, 20000.0, 4, diagonal),
    kind("many diagonals out of reach", 2, 2000.0, 4, diagonals),
    kind("4 clusters in a row, 1.06 t apart", 4, 500.0, 4, |rng, n| row(rng, n, 4)),
    kind("16 clusters in a row, 1.06 t apart", 4, 500.0, 4, |rng, n| row(rng, n, 16)),
    kind("64 clusters in a row, 1.06 t apart", 4, 500.0, 4, |rng, n| row(rng, n, 64)),
    kind("walls 1.04 t apart", 4, 1000.0, 4, walls),
    kind("a chain of cells", 1, 2.0, 2, chain),
    kind("uniform, t 65,535", 4, 65535.0, 4, uniform),
    kind("the same, none core", 4, 65535.0, 60000, uniform),
];

const fn kind(name: &'static str, channels: usize, t: f64, min_points: usize, make: fn(&mut Random, usize) -> Vec<i16>) -> Kind {
    Kind {
        name,
        channels,
        t,
        min_points,
        make,
    }
}

/// n frames of four counts from a to b.
fn cube(rng: &mut Random, n: usize, a: i64, b: i64) -> Vec<i16> {
    (0..4 * n).map(|_| rng.range(a, b) as i16).collect()
}

/// n frames, channel 0 by turns from two ranges, the other three from a to b.
fn pair(rng: &mut Random, n: usize, one: (i64, i64), two: (i64, i64), a: i64, b: i64) -> Vec<i16> {
    let mut points = Vec::new();
    for i in 0..n {
        let (low, high) = if i % 2 == 0 { one } else { two };
        points.push(rng.range(low, high) as i16);
        points.extend((0..3).map(|_| rng.range(a, b) as i16));
    }
    points
}

fn one_cell(rng: &mut Random, n: usize) -> Vec<i16> {
    cube(rng, n, -240, 240)
}

fn quiet(rng: &mut Random, n: usize) -> Vec<i16> {
    let mut points = cube(rng, n - n / 32, -240, 240);
    points.extend(cube(rng, n / 32, -6000, 6000));
    points
}

fn same(_: &mut Random, n: usize) -> Vec<i16> {
    vec![7; 4 * n]
}

fn copies(rng: &mut Random, n: usize) -> Vec<i16> {
    let frames = cube(rng, 64, -3000, 3000);
    (0..n).flat_map(|_| frames[4 * rng.below(64)..][..4].to_vec()).collect()
}

/// Directions at random, lengths up to 990 that fill the ball evenly.
fn ball(rng: &mut Random, n: usize) -> Vec<i16> {
    let mut points = Vec::new();
    for _ in 0..n {
        let way: Vec<f64> = (0..4).map(|_| rng.normal()).collect();
        let length = 990.0 * rng.unit().powf(0.25) / way.iter().map(|x| x * x).sum::<f64>().sqrt();
        points.extend(way.iter().map(|x| count(x * length)));
    }
    points
}

/// The first n points of a lattice eight apart, in any order.
fn lattice(rng: &mut Random, n: usize) -> Vec<i16> {
    let mut numbers: Vec<usize> = (0..n).collect();
    rng.shuffle(&mut numbers);
    numbers
        .iter()
        .flat_map(|i| (0..4).map(move |k| (8 * (i / 8usize.pow(k) % 8)) as i16))
        .collect()
}

fn touching(rng: &mut Random, n: usize) -> Vec<i16> {
    pair(rng, n, (1505, 1525), (-500, -480), -490, 490)
}

fn out_of_reach(rng: &mut Random, n: usize) -> Vec<i16> {
    pair(rng, n, (1530, 1550), (-500, -480), -490, 490)
}

fn thin_out_of_reach(rng: &mut Random, n: usize) -> Vec<i16> {
    pair(rng, n, (1530, 1550), (-500, -480), -5, 5)
}

fn between(rng: &mut Random, n: usize) -> Vec<i16> {
    pair(rng, n, (1501, 1501), (-500, -500), -5, 5)
}

fn diagonal(rng: &mut Random, n: usize) -> Vec<i16> {
    let along = |rng: &mut Random| rng.range(-7000, 7000) as i16;
    (0..n)
        .flat_map(|i| {
            let u = along(rng);
            if i % 2 == 0 {
                [14172 + u, 14172 - u]
            } else {
                [u, -u]
            }
        })
        .collect()
}

fn diagonals(rng: &mut Random, n: usize) -> Vec<i16> {
    (0..n)
        .flat_map(|_| {
            let u = rng.between(-10000.0, 10000.0);
            let j = 1418.0 * rng.range(-8, 8) as f64;
            [count(j + u), count(j - u)]
        })
        .collect()
}

/// So many clusters of 25 by 200 by 200 by 200 counts in a row, 530 apart.
fn row(rng: &mut Random, n: usize, clusters: usize) -> Vec<i16> {
    (0..n)
        .flat_map(|i| {
            let x = (i % clusters) as i64 * 555 - 17760 + rng.range(0, 25);
            [x, rng.range(-100, 100), rng.range(-100, 100), rng.range(-100, 100)]
        })
        .map(|x| x as i16)
        .collect()
}

fn walls(rng: &mut Random, n: usize) -> Vec<i16> {
    (0..n)
        .flat_map(|_| {
            let x = rng.range(0, 20) * 1040 - 10000 + rng.range(0, 8);
            [x, rng.range(-1000, 1000), rng.range(-1000, 1000), rng.range(-1000, 1000)]
        })
        .map(|x| x as i16)
        .collect()
}

/// Two apart, numbered so that leaders form long chains.
fn chain(_: &mut Random, n: usize) -> Vec<i16> {
    (0..n).map(|i| ((i * 7919 % n) * 2) as i16 - 4096).collect()
}

fn uniform(rng: &mut Random, n: usize) -> Vec<i16> {
    cube(rng, n, -32768, 32767)
}
