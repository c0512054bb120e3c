//! The sets: short ones exhaustively, the others at random and at the edges, from a seed.
use crate::Call;
use original::library::work_words;
use original::random::{count, Random};

pub type Frame = Vec<i64>;

fn inside(frames: &[Frame]) -> bool {
    frames.iter().flatten().all(|c| (-32768..=32767).contains(c))
}

fn root(channels: usize) -> f64 {
    (channels as f64).sqrt()
}

fn clip(x: f64) -> i64 {
    count(x) as i64
}

/// A call that the table accepts, with some room more than needed in each slice.
fn call(rng: &mut Random, channels: usize, min_points: usize, t: i64, s: usize, frames: &[Frame]) -> Call {
    let n = frames.len();
    Call {
        channels,
        min_points,
        tolerance: t as f64,
        slack: 0.5f64.powi(s as i32),
        points: frames.iter().flatten().map(|c| *c as i16).collect(),
        labels: n + rng.pick(&[0, 0, 1, 5]),
        kinds: n + rng.pick(&[0, 0, 1, 5]),
        work: work_words(n, s) + rng.pick(&[0, 0, 1, 17]),
    }
}

/// Calls `give` with every set of n frames whose counts lie from -span to span, with all the settings.
fn every(channels: usize, n: usize, span: i64, ts: &[i64], ss: &[usize], ms: &[usize], rng: &mut Random, give: &mut dyn FnMut(Call)) {
    let width = (2 * span + 1) as u64;
    for code in 0..width.pow((channels * n) as u32) {
        let mut rest = code;
        let mut frames = vec![vec![0; channels]; n];
        for c in frames.iter_mut().flatten() {
            *c = (rest % width) as i64 - span;
            rest /= width;
        }
        for &t in ts {
            for &s in ss {
                for &m in ms {
                    give(call(rng, channels, m, t, s, &frames));
                }
            }
        }
    }
}

pub fn short(rng: &mut Random, give: &mut dyn FnMut(Call)) {
    for n in 0..=2 {
        every(1, n, 5, &[1, 2, 3, 4, 5], &[0, 1, 2, 10], &[2, 3], rng, give);
    }
    every(1, 3, 4, &[1, 2, 3, 4], &[0, 1, 2], &[2, 3], rng, give);
    every(1, 4, 3, &[2, 3], &[0, 1], &[2, 3], rng, give);
    every(1, 5, 2, &[1, 2], &[0], &[2, 3], rng, give);
    every(2, 1, 2, &[1, 2], &[0, 1], &[2], rng, give);
    every(2, 2, 3, &[1, 2, 3, 4], &[0, 1], &[2], rng, give);
    every(2, 3, 1, &[1, 2], &[0, 1], &[2, 3], rng, give);
    every(3, 2, 1, &[1, 2, 3], &[0, 1], &[2], rng, give);
    every(4, 2, 1, &[1, 2], &[0], &[2], rng, give);
}

fn tolerance(rng: &mut Random) -> i64 {
    match rng.below(8) {
        0 | 1 => rng.range(1, 12),
        2 | 3 => rng.range(1, 300),
        4 => rng.range(300, 9000),
        5 => rng.pick(&[2, 4, 8, 64, 100, 1000, 4096, 32768]),
        6 => rng.pick(&[65535, 65534, 65533, 32767, 46340, 46341]),
        _ => rng.range(1, 65535),
    }
}

/// One frame on or beside an edge of a base cell or of one of its halves.
fn at_edge(rng: &mut Random, channels: usize, t: i64, s: usize) -> Frame {
    let side = t as f64 / root(channels);
    (0..channels)
        .map(|_| {
            let w = side / (1u64 << rng.pick(&[0, 0, 0, 1, s + 1])) as f64;
            let most = (32767.0 / w).min(4.0 * side / w).max(1.0) as i64;
            clip((rng.range(-most, most) as f64 + 0.5) * w) + rng.pick(&[0, 0, 0, 0, 1, -1])
        })
        .map(|c| c.clamp(-32768, 32767))
        .collect()
}

pub fn edges(rng: &mut Random) -> Call {
    let (channels, t, s) = (1 + rng.below(4), tolerance(rng), rng.below(11));
    let n = 2 + rng.below(9);
    let frames: Vec<Frame> = (0..n).map(|_| at_edge(rng, channels, t, s)).collect();
    let m = 2 + rng.below(4);
    call(rng, channels, m, t, s, &frames)
}

fn isqrt(n: i64) -> i64 {
    let mut r = (n as f64).sqrt() as i64;
    while r * r > n {
        r -= 1;
    }
    while (r + 1) * (r + 1) <= n {
        r += 1;
    }
    r
}

/// Differences whose squares add up to the total, or to as near below it (above it, if up) as the last one allows.
fn aim(rng: &mut Random, channels: usize, total: i64, up: bool) -> Frame {
    let mut left = total;
    let mut d = Vec::new();
    for _ in 1..channels {
        let x = if rng.below(4) == 0 { 0 } else { rng.range(0, isqrt(left)) };
        d.push(x);
        left -= x * x;
    }
    let mut last = isqrt(left);
    if up && last * last < left {
        last += 1;
    }
    d.push(last);
    rng.shuffle(&mut d);
    d
}

/// The last N inside the far reach.
fn far_reach(t: i64, s: usize) -> i64 {
    let p = 1i64 << s;
    (t * (p + 1) * (t * (p + 1)) + p * p - 1) / (p * p)
}

/// Frames beside p at a squared distance that a test asks about.
fn beside(rng: &mut Random, p: &Frame, total: i64, up: bool) -> Frame {
    let d = aim(rng, p.len(), total, up);
    p.iter()
        .zip(d)
        .map(|(x, y)| if rng.below(2) == 0 { x + y } else { x - y })
        .collect()
}

/// Two heaps, N at t * t or at the far reach.
pub fn reach(rng: &mut Random) -> Call {
    loop {
        let (channels, t, s) = (1 + rng.below(4), tolerance(rng), rng.below(11));
        let p: Frame = match rng.below(3) {
            0 => at_edge(rng, channels, t, s),
            1 => (0..channels).map(|_| rng.range(-32768, 32767)).collect(),
            _ => (0..channels)
                .map(|_| rng.pick(&[0, 1, -1, -32768, 32767, t / 2, -t / 2]))
                .map(|c| c.clamp(-32768, 32767))
                .collect(),
        };
        let far = far_reach(t, s);
        let (total, up) = rng.pick(&[
            (t * t - 1, false),
            (t * t, false),
            (t * t + 1, true),
            (far, false),
            (far + 1, true),
            (4 * t * t, false),
            (4 * t * t + 1, true),
        ]);
        let q = beside(rng, &p, total, up);
        let m = 2 + rng.below(3);
        let mut frames = vec![p.clone(); rng.pick(&[1, m, m])];
        frames.extend(vec![q.clone(); rng.pick(&[1, m, m])]);
        if rng.below(3) == 0 {
            let (total, up) = rng.pick(&[(t * t, false), (far, false), (far + 1, true)]);
            let third = beside(rng, &q, total, up);
            frames.push(third);
        }
        if rng.below(2) == 0 {
            rng.shuffle(&mut frames);
        }
        if inside(&frames) {
            return call(rng, channels, m, t, s, &frames);
        }
    }
}

fn index(c: i64, side: f64) -> f64 {
    let (c, half) = (c as f64, side / 2.0);
    if -half <= c && c < half {
        0.0
    } else if c > 0.0 {
        ((c - half) / side).ceil()
    } else {
        -1.0 + ((c + half) / side).ceil()
    }
}

/// A heap and a frame for which a box test's two sides are equal, or equal but for the rounding.
pub fn rounding(rng: &mut Random) -> Call {
    if rng.below(8) == 0 {
        let k = rng.range(1, 600);
        let sign = rng.pick(&[1, 1, -1]);
        let (mut p, mut q) = (
            vec![-14 * k * sign, -3 * k * sign, -3 * k * sign],
            vec![-k * sign, 2 * k * sign, 2 * k * sign],
        );
        let turn = rng.below(3);
        p.rotate_left(turn);
        q.rotate_left(turn);
        return call(rng, 3, 3, 12 * k, 1, &[p.clone(), p.clone(), p, q]);
    }
    loop {
        let (channels, s) = (1 + rng.below(4), rng.pick(&[0, 0, 1, 1, 2, 3, 4, 6, 10]));
        let t = match rng.below(3) {
            0 => rng.range(1, 60),
            1 => rng.range(1, 1500),
            _ => 12 * rng.range(1, 900),
        };
        let level = rng.below(s + 1);
        let side = t as f64 / root(channels) / (1u64 << level) as f64;
        let reach = if rng.below(2) == 0 { side / 2.0 } else { 2.0 * t as f64 };
        let p: Frame = (0..channels).map(|_| clip(rng.between(-reach, reach))).collect();
        let centre: Vec<f64> = p.iter().map(|c| index(*c, side) * side).collect();
        let half = t as f64 / (1u64 << (level + 1)) as f64;
        let extended = t as f64 * (1.0 + 0.5f64.powi(s as i32));
        let want = rng.pick(&[t as f64 + half, extended - half]);
        let mut q: Frame = (0..channels)
            .map(|i| rng.pick(&[clip(centre[i]), 0, clip(centre[i] + t as f64 * 0.7)]) + rng.range(-t / 3 - 1, t / 3 + 1))
            .collect();
        let solved = rng.below(channels);
        let rest = want * want
            - (0..channels)
                .filter(|i| *i != solved)
                .map(|i| (q[i] as f64 - centre[i]).powi(2))
                .sum::<f64>();
        if rest < 0.0 {
            continue;
        }
        q[solved] = (centre[solved] + rng.pick(&[-1.0, 1.0]) * rest.sqrt()).round() as i64;
        let d = (0..channels).map(|i| (q[i] as f64 - centre[i]).powi(2)).sum::<f64>().sqrt();
        if (d - want).abs() > 1e-12 * want {
            continue;
        }
        let m = 2 + rng.below(2);
        let mut frames = vec![p.clone(); m];
        frames.extend(vec![q; rng.pick(&[1, 1, m])]);
        if rng.below(3) == 0 {
            frames.push(at_edge(rng, channels, t, s));
        }
        if rng.below(2) == 0 {
            rng.shuffle(&mut frames);
        }
        if inside(&frames) {
            return call(rng, channels, m, t, s, &frames);
        }
    }
}

/// First frames about 2 t apart, with frames between them: lists, and core frames that they miss.
pub fn lists(rng: &mut Random) -> Call {
    loop {
        let (channels, t, s) = (1 + rng.below(4), tolerance(rng), rng.below(11));
        let frames = if rng.below(2) == 0 {
            between(rng, channels, t)
        } else {
            two_cells(rng, channels, t)
        };
        if inside(&frames) {
            let m = 2 + rng.below(3);
            return call(rng, channels, m, t, s, &frames);
        }
    }
}

/// Two frames about 2 t apart, and others on the line between them.
fn between(rng: &mut Random, channels: usize, t: i64) -> Vec<Frame> {
    let p: Frame = (0..channels).map(|_| rng.range(-t, t).clamp(-32768, 32767)).collect();
    let (total, up) = rng.pick(&[(4 * t * t, false), (4 * t * t - 1, false), (4 * t * t + 1, true)]);
    let q = beside(rng, &p, total, up);
    let mut frames = vec![p.clone(), q.clone()];
    for _ in 0..1 + rng.below(6) {
        let k = rng.pick(&[0.25, 0.4, 0.5, 0.6, 0.75, 1.25]);
        frames.push(
            p.iter()
                .zip(&q)
                .map(|(x, y)| clip(*x as f64 + (y - x) as f64 * k) + rng.range(-1, 1))
                .collect(),
        );
    }
    if rng.below(3) == 0 {
        rng.shuffle(&mut frames);
    }
    frames
}

/// Two cells less than t apart: their first frames at the far ends, as near as may be to 2 t apart, the others at the near ends.
fn two_cells(rng: &mut Random, channels: usize, t: i64) -> Vec<Frame> {
    let side = t as f64 / root(channels);
    let square = |x: f64| x * x;
    let away = loop {
        let away: Vec<f64> = (0..channels).map(|_| rng.range(-2, 2) as f64).collect();
        let gap: f64 = away.iter().map(|o| square((o.abs() - 1.0).max(0.0))).sum();
        let most: f64 = away.iter().map(|o| square(o.abs() + 1.0)).sum();
        if gap < channels as f64 && most >= 4.0 * channels as f64 {
            break away;
        }
    };
    // a frame of the first cell (end -1) or of the other (end 1), at its side towards the other cell (near 1) or away from it (near -1)
    let mut place = |end: f64, near: f64| -> Frame {
        away.iter()
            .map(|o| {
                let middle = if end > 0.0 { o * side } else { 0.0 };
                let into = if *o == 0.0 {
                    rng.between(-1.0, 1.0)
                } else {
                    -end * near * o.signum() * (1.0 - square(square(rng.unit())))
                };
                clip(middle + into * (0.5 * side - 0.5).max(0.0))
            })
            .collect()
    };
    let distance = |a: &Frame, b: &Frame| a.iter().zip(b).map(|(x, y)| (x - y) * (x - y)).sum::<i64>();
    let (mut a, mut b) = (place(-1.0, -1.0), place(1.0, -1.0));
    for _ in 0..20 {
        let (c, d) = (place(-1.0, -1.0), place(1.0, -1.0));
        if (distance(&c, &d) - 4 * t * t).abs() < (distance(&a, &b) - 4 * t * t).abs() {
            (a, b) = (c, d);
        }
    }
    let near = [place(-1.0, 1.0), place(-1.0, 1.0), place(1.0, 1.0), place(1.0, 1.0)];
    let mut frames = vec![a, b];
    for _ in 0..1 + rng.below(5) {
        frames.push(near[rng.below(4)].clone());
    }
    frames
}

/// Random frames at the scale of the tolerance.
pub fn clouds(rng: &mut Random) -> Call {
    let (channels, t, s) = (1 + rng.below(4), tolerance(rng), rng.below(11));
    let n = 2 + rng.below(50);
    let spread = t as f64 * (0.5 + 0.35 * (n as f64).powf(1.0 / channels as f64)) * rng.pick(&[0.3, 0.6, 1.0, 1.6]);
    let hearts: Vec<Frame> = (0..1 + rng.below(5))
        .map(|_| (0..channels).map(|_| clip(rng.between(-2.0 * spread, 2.0 * spread))).collect())
        .collect();
    let gathered = rng.below(2) == 0;
    let frames: Vec<Frame> = (0..n)
        .map(|_| {
            let heart = &hearts[rng.below(hearts.len())];
            let scale = rng.pick(&[0.2, 0.5, 1.0]) * t as f64;
            (0..channels)
                .map(|i| {
                    if gathered {
                        clip(heart[i] as f64 + rng.normal() * scale)
                    } else {
                        clip(rng.between(-spread, spread))
                    }
                })
                .collect()
        })
        .collect();
    let m = rng.pick(&[2, 2, 3, 4, 5, 8, 60]);
    call(rng, channels, m, t, s, &frames)
}

/// Counts anywhere and at the ends of their range.
pub fn anywhere(rng: &mut Random) -> Call {
    let (channels, t, s) = (1 + rng.below(4), tolerance(rng), rng.below(11));
    let n = rng.below(30);
    let ends = rng.below(2) == 0;
    let frames: Vec<Frame> = (0..n)
        .map(|_| {
            (0..channels)
                .map(|_| {
                    if ends {
                        rng.pick(&[-32768, -32767, 32766, 32767, 0, -1, 1])
                    } else {
                        rng.range(-32768, 32767)
                    }
                })
                .collect()
        })
        .collect();
    let m = rng.pick(&[2, 2, 3, n.max(2), n + 2, 65535, usize::MAX]);
    call(rng, channels, m, t, s, &frames)
}

/// Few frames many times, and lines of cells that are numbered out of order.
pub fn heaps(rng: &mut Random) -> Call {
    let (channels, s) = (1 + rng.below(4), rng.below(11));
    let n = 10 + rng.below(200);
    if rng.below(2) == 0 {
        let t = rng.range(1, 400);
        let base: Vec<Frame> = (0..1 + rng.below(12))
            .map(|_| (0..channels).map(|_| rng.range(-2 * t, 2 * t)).collect())
            .collect();
        let frames: Vec<Frame> = (0..n).map(|_| base[rng.below(base.len())].clone()).collect();
        let m = rng.pick(&[2, 5, n / 4 + 2, n / 2 + 2, n]);
        return call(rng, channels, m, t, s, &frames);
    }
    let t = rng.range(1, 9);
    let step = rng.range(1, t + 1);
    let mut frames: Vec<Frame> = (0..n as i64)
        .map(|i| {
            (0..channels)
                .map(|k| if k == 0 { i * step - 100 } else { (i % 2) * (t / 2) })
                .collect()
        })
        .collect();
    if rng.below(2) == 0 {
        rng.shuffle(&mut frames);
    } else {
        frames.reverse();
    }
    let m = 2 + rng.below(2);
    call(rng, channels, m, t, s, &frames)
}

/// Many frames: n of them, of one of several shapes.
pub fn many(rng: &mut Random, n: usize) -> Call {
    let (channels, s) = (1 + rng.below(4), rng.pick(&[0, 1, 3, 7, 10]));
    let (t, m, frames): (i64, usize, Vec<Frame>) = match rng.below(7) {
        0 => {
            let hearts: Vec<Vec<f64>> = (0..5)
                .map(|_| (0..channels).map(|_| rng.between(-20000.0, 20000.0)).collect())
                .collect();
            (
                200,
                8,
                (0..n)
                    .map(|_| {
                        let h = &hearts[rng.below(5)];
                        (0..channels).map(|i| clip(h[i] + 60.0 * rng.normal())).collect()
                    })
                    .collect(),
            )
        }
        1 => (
            rng.pick(&[50, 700, 5000]),
            rng.pick(&[2, 4]),
            (0..n).map(|_| (0..channels).map(|_| rng.range(-32768, 32767)).collect()).collect(),
        ),
        2 => {
            let waves = [(12000.0, 15.0), (9000.0, 15.0), (4000.0, 15.0), (1500.0, 30.0)];
            let turn = std::f64::consts::TAU / n as f64;
            (
                rng.pick(&[100, 500]),
                4,
                (0..n)
                    .map(|i| {
                        (0..channels)
                            .map(|k| clip(waves[k].0 * (turn * i as f64 * waves[k].1 + 0.7 * k as f64).sin() + 25.0 * rng.normal()))
                            .collect()
                    })
                    .collect(),
            )
        }
        3 => (
            1000,
            4,
            (0..n).map(|_| (0..channels).map(|_| rng.range(-240, 240)).collect()).collect(),
        ),
        4 => {
            let k = (n as f64).powf(1.0 / channels as f64).ceil() as usize;
            let mut frames: Vec<Frame> = (0..n)
                .map(|i| {
                    (0..channels)
                        .map(|j| (8 * (i / k.pow(j as u32) % k)) as i64 - 4 * k as i64)
                        .collect()
                })
                .collect();
            rng.shuffle(&mut frames);
            (16, rng.pick(&[2, 4, 40]), frames)
        }
        5 => {
            let mut frames: Vec<Frame> = (0..n as i64)
                .map(|i| (0..channels).map(|k| if k == 0 { i * 2 - 4000 } else { 0 }).collect())
                .collect();
            rng.shuffle(&mut frames);
            (2, 2, frames)
        }
        _ => {
            let t = rng.range(20, 3000);
            (t, rng.pick(&[2, 3, 6]), (0..n).map(|_| at_edge(rng, channels, t, s)).collect())
        }
    };
    call(rng, channels, m, t, s, &frames)
}

/// Two or three cells with more than 1,024 frames each, about t to 2 t apart, and frames about the far reach of them: their trees are asked.
pub fn large(rng: &mut Random) -> Call {
    let (channels, t, s) = (1 + rng.below(4), rng.range(40, 4000), rng.below(11));
    let (side, far) = (t as f64 / root(channels), far_reach(t, s));
    let mut frames: Vec<Frame> = Vec::new();
    for c in 0..2 + rng.below(2) {
        let middle: Vec<f64> = (0..channels)
            .map(|_| if c == 0 { 0.0 } else { rng.range(-2, 2) as f64 * side })
            .collect();
        let spread = rng.pick(&[0.02, 0.1, 0.45]) * side;
        for _ in 0..1025 + rng.below(320) {
            frames.push(middle.iter().map(|x| clip(x + rng.between(-spread, spread))).collect());
        }
    }
    for _ in 0..40 {
        let p = frames[rng.below(frames.len())].clone();
        let (total, up) = rng.pick(&[(t * t, false), (t * t + 1, true), (far, false), (far + 1, true), (9 * t * t / 4, true)]);
        let q = beside(rng, &p, total, up);
        frames.push(q.into_iter().map(|x| x.clamp(-32768, 32767)).collect());
    }
    if rng.below(2) == 0 {
        rng.shuffle(&mut frames);
    }
    let m = rng.pick(&[2, 8, 1000]);
    call(rng, channels, m, t, s, &frames)
}

/// Two to eight clusters of 20 to 200 frames in a row, each about t to 1.2 times the far reach from the next: boxes, paths, trees and spans of cells that nearly touch.
pub fn clusters(rng: &mut Random) -> Call {
    let (channels, t, s) = (1 + rng.below(4), rng.range(8, 3000), rng.below(11));
    let half = t as f64 / root(channels) / 2.0;
    let slack = 0.5f64.powi(s as i32);
    let (thick, across) = (rng.pick(&[1.0, 0.1 * half, 0.5 * half]), rng.pick(&[1.0, 0.1 * half, 0.9 * half]));
    let mut frames: Vec<Frame> = Vec::new();
    let mut from = rng.between(-half, half);
    for _ in 0..2 + rng.below(7) {
        for _ in 0..20 + rng.below(181) {
            frames.push(
                (0..channels)
                    .map(|k| clip(if k == 0 { from + rng.between(0.0, thick) } else { rng.between(-across, across) }))
                    .collect(),
            );
        }
        from += thick + t as f64 * (1.0 + rng.between(-0.1, 1.2) * slack);
    }
    rng.shuffle(&mut frames);
    let m = rng.pick(&[2, 4, 30]);
    call(rng, channels, m, t, s, &frames)
}

/// Settings and lengths of every sort, refused ones most often, several at once.
pub fn table(rng: &mut Random) -> Call {
    let s = rng.below(11);
    let mut channels = 1 + rng.below(4);
    let n = rng.below(6);
    let t = rng.range(1, 40);
    let frames: Vec<Frame> = (0..n).map(|_| (0..channels).map(|_| rng.range(-30, 30)).collect()).collect();
    let m = 2 + rng.below(2);
    let mut c = call(rng, channels, m, t, s, &frames);
    let next = |x: f64, up: bool| f64::from_bits(if up { x.to_bits() + 1 } else { x.to_bits() - 1 });
    for _ in 0..rng.pick(&[1, 1, 1, 1, 2, 2, 3, 5]) {
        match rng.below(9) {
            0 => c.min_points = rng.pick(&[0, 1, 1, 2, 3, usize::MAX, 1 << 63, 65536]),
            1 => c.tolerance = rng.pick(&[0.0, -0.0, -1.0, f64::NEG_INFINITY, -5e-324, -0.5, -65536.0]),
            2 => c.slack = rng.pick(&[0.0, -0.0, -1.0, f64::NEG_INFINITY, -5e-324, -0.5]),
            3 => {
                c.tolerance = rng.pick(&[
                    f64::NAN,
                    -f64::NAN,
                    f64::INFINITY,
                    5e-324,
                    0.5,
                    1.5,
                    65534.5,
                    65535.5,
                    65536.0,
                    9007199254740992.0,
                    1e300,
                    next(1.0, false),
                    next(1.0, true),
                    next(65535.0, true),
                    next(65535.0, false),
                    1.0,
                    65535.0,
                    65534.0,
                    32768.0,
                    4294967297.0,
                    18446744073709551616.0,
                    2147483649.0,
                ])
            }
            4 => {
                c.slack = rng.pick(&[
                    f64::NAN,
                    -f64::NAN,
                    f64::INFINITY,
                    2.0,
                    0.75,
                    1.5,
                    5e-324,
                    0.3,
                    0.5f64.powi(11),
                    0.5f64.powi(10),
                    1.0,
                    next(1.0, false),
                    next(1.0, true),
                    next(0.5f64.powi(10), false),
                    next(0.5f64.powi(10), true),
                    f64::from_bits(1 << 52),
                    1e300,
                ])
            }
            5 => {
                channels = rng.pick(&[0, 5, 6, 255, 256, 257, 65537, 1 << 32, (1 << 32) + 1, 1 << 63, usize::MAX]);
                c.channels = channels;
            }
            6 => {
                let wanted = rng.pick(&[
                    c.points.len() + 1,
                    c.points.len().saturating_sub(1),
                    4097 * channels.clamp(1, 4),
                    4096 * channels.clamp(1, 4) + 1,
                    4096 * channels.clamp(1, 4),
                    20000,
                    40000,
                    65536 * channels.clamp(1, 4),
                ]);
                c.points.resize(wanted, 7);
            }
            7 => {
                let frames = c.points.len() / channels.clamp(1, 4);
                let less = rng.pick(&[1, 1, 2, frames]);
                if rng.below(2) == 0 {
                    c.labels = frames.saturating_sub(less);
                } else {
                    c.kinds = frames.saturating_sub(less);
                }
            }
            _ => {
                let less = rng.pick(&[1, 1, 4, 17, c.work]);
                c.work = c.work.saturating_sub(less);
            }
        }
    }
    // enough of everything for the frames there are now, half of the time
    if rng.below(2) == 0 {
        let frames = c.points.len() / channels.clamp(1, 4);
        c.labels = c.labels.max(frames.min(5000));
        c.kinds = c.kinds.max(frames.min(5000));
        if rng.below(2) == 0 {
            c.work = c.work.max(work_words(frames.min(5000), s));
        }
    }
    c
}
