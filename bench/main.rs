//! Times this library and the original on the same frames in one run of one program.
//! The figure is processor time of the thread, the least of several runs, in milliseconds. Of the original `transform` alone is timed, with
//! both of its searches for listed cells: the counts stand ready as floats, and what it allocates is in its time.
//! Of this library the whole call is timed: table of refusals, run, copying out, clearing of the needed work words.
//! The buffers lent to it are filled with other words before each run, outside the time: nothing is cleared for it.
//! usage: bench [--seed N] [--quick]
use original::appx_dbscan::{plain, probe};
use original::library::{self, work_words};
use original::random::{count, Random};
use original::{rows, settings, Search};

mod hard;

#[repr(C)]
struct Timespec {
    seconds: i64,
    nanoseconds: i64,
}
extern "C" {
    fn clock_gettime(clock: i32, time: *mut Timespec) -> i32;
}
const THREAD_CPUTIME: i32 = 3;

/// Seconds of this thread on a processor.
fn now() -> f64 {
    let mut t = Timespec {
        seconds: 0,
        nanoseconds: 0,
    };
    let answer = unsafe { clock_gettime(THREAD_CPUTIME, &mut t) };
    assert_eq!(answer, 0, "the system tells no processor time");
    t.seconds as f64 + t.nanoseconds as f64 * 1e-9
}

/// The least time of one run, in milliseconds: at least 3 runs, and more up to 40 while all of them are short.
fn least(quick: bool, mut run: impl FnMut() -> f64) -> f64 {
    let (mut best, mut all) = (f64::INFINITY, 0.0);
    for k in 0..40 {
        let took = run();
        best = best.min(took);
        all += took;
        if k >= 2 && all > if quick { 0.05 } else { 0.5 } {
            break;
        }
    }
    best * 1e3
}

struct Set {
    name: &'static str,
    channels: usize,
    frames: usize,
    t: f64,
    min_points: usize,
    s: usize,
    points: Vec<i16>,
}

/// `noise` is how far telemetry strays from its curve.
fn make(rng: &mut Random, kind: &str, channels: usize, n: usize, noise: f64) -> Vec<i16> {
    let waves = [(12000.0, 15.0), (9000.0, 15.0), (4000.0, 15.0), (1500.0, 30.0)];
    let hearts: Vec<f64> = (0..5 * channels).map(|_| rng.between(-20000.0, 20000.0)).collect();
    let mut points = Vec::new();
    for i in 0..n {
        let heart = rng.below(5) * channels;
        for k in 0..channels {
            points.push(match kind {
                "dense" => count(hearts[heart + k] + 60.0 * rng.normal()),
                "uniform" => rng.range(-32768, 32767) as i16,
                "telemetry" => count(
                    waves[k].0 * (std::f64::consts::TAU / n as f64 * i as f64 * waves[k].1 + 0.7 * k as f64).sin() + noise * rng.normal(),
                ),
                _ => unreachable!(),
            });
        }
    }
    points
}

/// How far telemetry strays from its curve.
const NOISE: f64 = 25.0;

struct Times {
    scan: f64,
    tree: f64,
    ours: f64,
}

impl Times {
    fn original(&self) -> f64 {
        self.scan.min(self.tree)
    }
    fn ratio(&self) -> f64 {
        self.original() / self.ours
    }
}

/// One run of the original, in seconds.
fn time_original(c: &Set, search: Search) -> impl FnMut() -> f64 + '_ {
    let floats = rows(&c.points, c.channels);
    let params = settings(c.min_points, c.t, 0.5f64.powi(c.s as i32), search).unwrap();
    move || {
        let start = now();
        let labels = plain(&floats, &params);
        let took = now() - start;
        assert_eq!(std::hint::black_box(labels).len(), c.frames);
        took
    }
}

/// What is lent to this library.
struct Lent {
    labels: Vec<u16>,
    kinds: Vec<u8>,
    work: Vec<u16>,
}

impl Lent {
    fn new(c: &Set) -> Lent {
        Lent {
            labels: vec![0; c.frames],
            kinds: vec![0; c.frames],
            work: vec![0; work_words(c.frames, c.s)],
        }
    }

    /// One run of this library, in seconds.
    fn time(&mut self, c: &Set) -> f64 {
        self.labels.fill(0xabab);
        self.kinds.fill(0xab);
        self.work.fill(0xabab);
        let slack = 0.5f64.powi(c.s as i32);
        let start = now();
        let answer = library::transform(
            &c.points,
            c.channels,
            c.min_points,
            c.t,
            slack,
            &mut self.labels,
            &mut self.kinds,
            &mut self.work,
        );
        let took = now() - start;
        assert_eq!(std::hint::black_box(answer).refusal, 0);
        took
    }
}

fn measure(c: &Set, quick: bool) -> Times {
    let scan = least(quick, time_original(c, Search::LinearSearch));
    let tree = least(quick, time_original(c, Search::KdTree));
    let mut lent = Lent::new(c);
    let ours = least(quick, || lent.time(c));
    // the two answers are the same
    let slack = 0.5f64.powi(c.s as i32);
    let answer = probe(
        &rows(&c.points, c.channels),
        &settings(c.min_points, c.t, slack, Search::KdTree).unwrap(),
        None,
    );
    let theirs: Vec<u16> = answer.labels.iter().map(|l| l.map_or(65535, |l| l as u16)).collect();
    assert!(
        theirs == lent.labels && answer.kinds == lent.kinds,
        "{}: the answers differ",
        c.name
    );
    Times { scan, tree, ours }
}

/// The middle of some times, in milliseconds.
fn middle(mut times: Vec<f64>) -> f64 {
    times.sort_by(|a, b| a.total_cmp(b));
    times[times.len() / 2] * 1e3
}

/// The middle time of runs on different sets of one kind: what a processor learns of a set while it runs it again and again does not count.
fn fresh(sets: &[Set]) -> Times {
    let mut lent = Lent::new(&sets[0]);
    Times {
        scan: middle(sets.iter().map(|c| time_original(c, Search::LinearSearch)()).collect()),
        tree: middle(sets.iter().map(|c| time_original(c, Search::KdTree)()).collect()),
        ours: middle(sets.iter().map(|c| lent.time(c)).collect()),
    }
}

/// The rows of a table of growth: `times` measures so many frames.
fn growth(name: &str, times: impl Fn(usize) -> Times) {
    let times: Vec<Times> = [512, 1024, 2048, 4096].iter().map(|n| times(*n)).collect();
    let each: Vec<String> = times.iter().map(|x| format!("{:.2} / {:.2}", x.original(), x.ours)).collect();
    println!(
        "| {} | {} | {:.1} | {:.1} |",
        name,
        each.join(" | "),
        times[3].original() / times[0].original(),
        times[3].ours / times[0].ours
    );
}

/// A table of the hard sets: they are not among the rows that the last line counts.
fn hard_sets(seed: u64, quick: bool) {
    println!("4,096 frames of hard sets, s 0, 3 and 10: original (faster search) / this library, and this library over the original\n\n| set | s 0 | | s 3 | | s 10 | |\n|---|---|---|---|---|---|---|");
    for kind in hard::KINDS {
        let points = (kind.make)(&mut Random::new(seed), 4096);
        let each: Vec<String> = [0, 3, 10]
            .iter()
            .map(|s| {
                let times = measure(
                    &Set {
                        name: kind.name,
                        channels: kind.channels,
                        frames: 4096,
                        t: kind.t,
                        min_points: kind.min_points,
                        s: *s,
                        points: points.clone(),
                    },
                    quick,
                );
                format!("{:.2} / {:.2} | {:.2}", times.original(), times.ours, 1.0 / times.ratio())
            })
            .collect();
        println!("| {} | {} |", kind.name, each.join(" | "));
    }
    println!();
}

fn main() {
    let (mut seed, mut quick) = (1, false);
    let mut args = std::env::args().skip(1);
    while let Some(a) = args.next() {
        match a.as_str() {
            "--seed" => seed = args.next().and_then(|n| n.parse().ok()).expect("--seed N"),
            "--quick" => quick = true,
            _ => panic!("unknown flag {}", a),
        }
    }
    let shapes = [
        ("dense, t 200", "dense", 200.0, 8),
        ("uniform, t 50", "uniform", 50.0, 4),
        ("uniform, t 5000", "uniform", 5000.0, 4),
        ("telemetry, t 100", "telemetry", 100.0, 4),
        ("telemetry, t 500", "telemetry", 500.0, 8),
    ];
    println!(
        "Milliseconds of processor time, the least of several runs; \"times faster\" is the original with the faster of its two searches"
    );
    println!(
        "for listed cells, divided by this library. Buffers lent to this library are not cleared for it: they are full of other words.\n"
    );
    let (mut lowest, mut product, mut number) = (f64::INFINITY, 0.0, 0);
    for channels in [4, 1] {
        println!("4,096 frames, {} channel{}\n\n| set | s | original, scan | original, kd-tree | this library | times faster |\n|---|---|---|---|---|---|", channels, if channels > 1 { "s" } else { "" });
        for (name, kind, t, min_points) in shapes {
            let points = make(&mut Random::new(seed), kind, channels, 4096, NOISE);
            for s in [0, 3, 7, 10] {
                let times = measure(
                    &Set {
                        name,
                        channels,
                        frames: 4096,
                        t,
                        min_points,
                        s,
                        points: points.clone(),
                    },
                    quick,
                );
                println!(
                    "| {} | {} | {:.2} | {:.2} | {:.2} | {:.2} |",
                    name,
                    s,
                    times.scan,
                    times.tree,
                    times.ours,
                    times.ratio()
                );
                lowest = times.ratio().min(lowest);
                product += times.ratio().ln();
                number += 1;
            }
        }
        println!();
    }
    hard_sets(seed, quick);
    let set = |(name, kind, t, min_points): (&'static str, &str, f64, usize), frames: usize, seed: u64| Set {
        name,
        channels: 4,
        frames,
        t,
        min_points,
        s: 3,
        points: make(&mut Random::new(seed), kind, 4, frames, NOISE),
    };
    let head = "| set | 512 | 1,024 | 2,048 | 4,096 | original grows | this library grows |\n|---|---|---|---|---|---|---|";
    println!(
        "Growth, 4 channels, s 3: original (faster search) / this library, and the time at 4,096 frames over that at 512\n\n{}",
        head
    );
    for shape in shapes {
        growth(shape.0, |n| measure(&set(shape, n, seed), quick));
    }
    let runs = if quick { 5 } else { 41 };
    println!(
        "\nThe same with another set of the kind at each run, the middle of {} runs\n\n{}",
        runs, head
    );
    for shape in shapes {
        growth(shape.0, |n| {
            let sets: Vec<Set> = (0..runs).map(|k| set(shape, n, seed + k)).collect();
            fresh(&sets)
        });
    }
    // With fewer frames, t is as much larger as keeps the frames around a frame as many: uniform frames fill four channels, and telemetry
    // lies along a curve, from which it then strays as much farther.
    let scaled = |(name, kind, t, min_points): (&'static str, &str, f64, usize), frames: usize, seed: u64| {
        let fewer = 4096.0 / frames as f64;
        let (wider, noise) = if kind == "uniform" {
            (fewer.powf(0.25), NOISE)
        } else {
            (fewer, NOISE * fewer)
        };
        Set {
            name,
            channels: 4,
            frames,
            t: (t * wider).round(),
            min_points,
            s: 3,
            points: make(&mut Random::new(seed), kind, 4, frames, noise),
        }
    };
    println!("\nThe same with as many frames around a frame in each set: t, and how far telemetry strays, as much larger as the frames are fewer\n\n{}", head);
    for shape in shapes.iter().filter(|shape| shape.1 != "dense") {
        growth(shape.0, |n| {
            let sets: Vec<Set> = (0..runs).map(|k| scaled(*shape, n, seed + k)).collect();
            fresh(&sets)
        });
    }
    println!(
        "\nbench: seed {}, {} sets of 4,096 frames, times faster: least {:.2}, geometric mean {:.2}",
        seed,
        number,
        lowest,
        (product / number as f64).exp()
    );
}
