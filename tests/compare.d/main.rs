//! Runs sets of frames through the original and through this library, and reports every difference: refusals, labels (clusters numbered
//! by lowest cell), kinds, counts, and what is written and left in each lent slice.
//! usage: compare [--seed N] [--part N] [--desk PROGRAM]     --part N runs one N-th of the random sets
mod desk;
mod sets;
use original::appx_dbscan::{plain, probe};
use original::library::{self, work_words};
use original::random::Random;
use original::{rows, same_partition, settings, Search};

/// A call: settings, counts, and the lengths of the slices lent.
#[derive(Clone, Debug)]
pub struct Call {
    pub channels: usize,
    pub min_points: usize,
    pub tolerance: f64,
    pub slack: f64,
    pub points: Vec<i16>,
    pub labels: usize,
    pub kinds: usize,
    pub work: usize,
}

/// The power s of a slack of the domain.
pub fn power(slack: f64) -> Option<usize> {
    (0..=10).find(|s| slack == 1.0 / (1u64 << s) as f64)
}

/// The table of refusals, top down; 0 where no condition holds.
pub fn number(c: &Call) -> u8 {
    if c.min_points <= 1 {
        return 1;
    }
    if c.tolerance <= 0.0 {
        return 2;
    }
    if c.slack <= 0.0 {
        return 3;
    }
    if !(1..=65535).any(|t| c.tolerance == t as f64) {
        return 4;
    }
    let Some(s) = power(c.slack) else { return 5 };
    if !(1..=4).contains(&c.channels) {
        return 6;
    }
    if c.points.len() % c.channels != 0 || c.points.len() > 4096 * c.channels {
        return 7;
    }
    let frames = c.points.len() / c.channels;
    if c.labels < frames || c.kinds < frames {
        return 8;
    }
    if c.work < work_words(frames, s) {
        return 9;
    }
    0
}

/// What the original answers: labels with 65,535 for none, kinds, clusters and core frames.
#[derive(Clone, PartialEq, Debug)]
pub struct Labelled {
    pub labels: Vec<u16>,
    pub kinds: Vec<u8>,
    pub clusters: usize,
    pub cores: usize,
}

/// The original's answer, by several runs: its hash tables have another order in each. An error says how two runs differ.
pub fn by_original(
    points: &[i16],
    channels: usize,
    min_points: usize,
    tolerance: f64,
    slack: f64,
    runs: usize,
) -> Result<Labelled, String> {
    let rows = rows(points, channels);
    let mut first: Option<Labelled> = None;
    for run in 0..runs {
        let search = if run % 2 == 0 { Search::LinearSearch } else { Search::KdTree };
        let params = settings(min_points, tolerance, slack, search).expect("settings that the original takes");
        let answer = probe(&rows, &params, None);
        if run == 0 && !same_partition(&plain(&rows, &params), &answer.labels) {
            return Err("the original's transform and its grid differ".into());
        }
        let this = Labelled {
            labels: answer.labels.iter().map(|l| l.map_or(65535, |l| l as u16)).collect(),
            kinds: answer.kinds,
            clusters: answer.clusters,
            cores: answer.cores,
        };
        match &first {
            None => first = Some(this),
            Some(f) if *f != this => return Err("two runs of the original differ".into()),
            _ => {}
        }
    }
    Ok(first.unwrap())
}

/// A slice with words before and after it that nobody may touch.
struct Lent<T> {
    all: Vec<T>,
    len: usize,
}
const GUARD: usize = 64;

impl<T: Copy + PartialEq> Lent<T> {
    fn new(len: usize, word: impl Fn(usize) -> T) -> Lent<T> {
        Lent {
            all: (0..len + 2 * GUARD).map(word).collect(),
            len,
        }
    }
    fn lend(&mut self) -> &mut [T] {
        let len = self.len;
        &mut self.all[GUARD..GUARD + len]
    }
    /// Whether the first words are these and all others are as they were.
    fn holds(&self, before: &[T], words: &[T]) -> bool {
        self.all[..GUARD] == before[..GUARD]
            && self.all[GUARD..GUARD + words.len()] == *words
            && self.all[GUARD + words.len()..] == before[GUARD + words.len()..]
    }
}

#[derive(Default)]
struct Row {
    name: &'static str,
    sets: u64,
    accepted: u64,
    frames: u64,
    core: u64,
    border: u64,
    noise: u64,
    several: u64,
    differ: u64,
}

struct Comparison {
    rng: Random,
    rows: Vec<Row>,
    refused: [u64; 10],
}

impl Comparison {
    fn begin(&mut self, name: &'static str) {
        self.rows.push(Row { name, ..Row::default() });
    }

    /// Runs one call through both. Whatever differs is told.
    fn try_call(&mut self, c: &Call) {
        let told = self.differences(c);
        let row = self.rows.last_mut().unwrap();
        row.sets += 1;
        if !told.is_empty() {
            row.differ += 1;
            if row.differ <= 3 {
                println!("DIFFERENCE in \"{}\", set {}: {}", row.name, row.sets, told.join("; "));
                println!(
                    "  channels {} min_points {} tolerance {:?} slack {:?} labels {} kinds {} work {} counts ({}) {:?}",
                    c.channels,
                    c.min_points,
                    c.tolerance,
                    c.slack,
                    c.labels,
                    c.kinds,
                    c.work,
                    c.points.len(),
                    &c.points[..c.points.len().min(64)]
                );
            }
        }
    }

    fn differences(&mut self, c: &Call) -> Vec<String> {
        let mut told = Vec::new();
        let expected = number(c);
        // numbers 1 to 3 are the original's own
        match settings(c.min_points, c.tolerance, c.slack, Search::LinearSearch) {
            Err(k) if k != expected => told.push(format!("the original refuses by {}, the table by {}", k, expected)),
            Ok(_) if (1..=3).contains(&expected) => told.push(format!("the original accepts what the table refuses by {}", expected)),
            _ => {}
        }
        let salt = self.rng.next() as usize;
        let mut labels = Lent::new(c.labels, |i| (i.wrapping_mul(40503) ^ salt) as u16);
        let mut kinds = Lent::new(c.kinds, |i| (i.wrapping_mul(151) ^ salt) as u8);
        let mut work = Lent::new(c.work, |i| (i.wrapping_mul(30011) ^ salt) as u16 | 1);
        let (labels_before, kinds_before, work_before) = (labels.all.clone(), kinds.all.clone(), work.all.clone());
        let points = c.points.clone();
        let answer = library::transform(
            &points,
            c.channels,
            c.min_points,
            c.tolerance,
            c.slack,
            labels.lend(),
            kinds.lend(),
            work.lend(),
        );
        if points != c.points {
            told.push("points changed".into());
        }
        if answer.refusal != expected {
            told.push(format!("refusal {} where the table says {}", answer.refusal, expected));
        }
        if expected != 0 {
            self.refused[expected as usize] += 1;
            if !labels.holds(&labels_before, &[]) || !kinds.holds(&kinds_before, &[]) || !work.holds(&work_before, &[]) {
                told.push("a refusal changed a lent slice".into());
            }
            if answer.refusal != 0 && (answer.clusters, answer.core_frames) != (0, 0) {
                told.push(format!(
                    "a refusal with {} clusters and {} core frames",
                    answer.clusters, answer.core_frames
                ));
            }
            return told;
        }
        self.refused[0] += 1;
        let frames = c.points.len() / c.channels;
        let runs = if frames > 1000 { 2 } else { 3 };
        match by_original(&c.points, c.channels, c.min_points, c.tolerance, c.slack, runs) {
            Err(e) => told.push(e),
            Ok(o) => {
                if (answer.clusters, answer.core_frames) != (o.clusters, o.cores) {
                    told.push(format!(
                        "clusters and core frames {} {}, original {} {}",
                        answer.clusters, answer.core_frames, o.clusters, o.cores
                    ));
                }
                if !labels.holds(&labels_before, &o.labels) {
                    let now = &labels.all[GUARD..GUARD + frames];
                    match (0..frames).find(|i| now[*i] != o.labels[*i]) {
                        Some(i) => told.push(format!("label of frame {} is {}, original {}", i, now[i], o.labels[i])),
                        None => told.push("labels past the frames changed".into()),
                    }
                }
                if !kinds.holds(&kinds_before, &o.kinds) {
                    let now = &kinds.all[GUARD..GUARD + frames];
                    match (0..frames).find(|i| now[*i] != o.kinds[*i]) {
                        Some(i) => told.push(format!("kind of frame {} is {}, original {}", i, now[i], o.kinds[i])),
                        None => told.push("kinds past the frames changed".into()),
                    }
                }
                let row = self.rows.last_mut().unwrap();
                row.accepted += 1;
                row.frames += frames as u64;
                row.core += o.cores as u64;
                row.border += o.kinds.iter().filter(|k| **k == 1).count() as u64;
                row.noise += o.kinds.iter().filter(|k| **k == 0).count() as u64;
                row.several += (o.clusters > 1) as u64;
            }
        }
        let needed = work_words(frames, power(c.slack).unwrap());
        if !work.holds(&work_before, &vec![0; needed]) {
            told.push("needed work words not zero, or others changed".into());
        }
        told
    }
}

fn main() {
    let (mut seed, mut part, mut program) = (1u64, 1usize, None);
    let mut args = std::env::args().skip(1);
    while let Some(a) = args.next() {
        let mut value = || args.next().unwrap_or_else(|| panic!("{} wants a value", a));
        match a.as_str() {
            "--seed" => seed = value().parse().expect("a number"),
            "--part" => part = value().parse().expect("a number"),
            "--desk" => program = Some(value()),
            _ => panic!("unknown flag {}", a),
        }
    }
    let start = std::time::Instant::now();
    let mut run = Comparison {
        rng: Random::new(seed ^ 0x5eed),
        rows: Vec::new(),
        refused: [0; 10],
    };
    let mut rng = Random::new(seed);

    run.begin("short sets, every one");
    sets::short(&mut rng, &mut |c| run.try_call(&c));
    let kinds: [(&'static str, usize, fn(&mut Random) -> Call); 8] = [
        ("frames on edges of cells", 12000, sets::edges),
        ("N at t*t, the far reach, 4*t*t", 15000, sets::reach),
        ("only rounding decides", 12000, sets::rounding),
        ("first frames about 2*t apart", 10000, sets::lists),
        ("clouds of 2 to 51 frames", 12000, sets::clouds),
        ("counts anywhere and at the ends", 6000, sets::anywhere),
        ("heaps and lines, 10 to 209 frames", 3000, sets::heaps),
        ("settings and lengths of the table", 30000, sets::table),
    ];
    for (name, sets, make) in kinds {
        run.begin(name);
        for _ in 0..sets / part {
            let c = make(&mut rng);
            run.try_call(&c);
        }
    }
    run.begin("210 to 1,024 frames");
    for _ in 0..300 / part {
        let n = 210 + rng.below(815);
        let c = sets::many(&mut rng, n);
        run.try_call(&c);
    }
    run.begin("1,025 to 4,096 frames");
    for i in 0..(60 / part).max(1) {
        let n = if i % 3 == 0 { 4096 } else { 1025 + rng.below(3071) };
        let c = sets::many(&mut rng, n);
        run.try_call(&c);
    }
    run.begin("cells with more than 1,024 frames");
    for _ in 0..(40 / part).max(1) {
        let c = sets::large(&mut rng);
        run.try_call(&c);
    }
    run.begin("clusters that nearly touch");
    for _ in 0..(400 / part).max(1) {
        let c = sets::clusters(&mut rng);
        run.try_call(&c);
    }
    // the function for the work words, on the whole domain and past its ends
    let past = [4097, 5000, 65536, 1 << 32, usize::MAX];
    let powers = [11, 12, 64, 255, 1 << 32, usize::MAX];
    let (mut words, mut wrong_words) = (0, 0u64);
    for frames in (0..=4096).chain(past) {
        for s in (0..=10).chain(powers) {
            let expected = if frames <= 4096 && s <= 10 { work_words(frames, s) } else { 0 };
            words += 1;
            wrong_words += (library::words_told(frames, s) != expected) as u64;
        }
    }
    let desk_line = program.map(|p| desk::compare(&p, &mut rng, 3000 / part));

    println!(
        "| sets | number | accepted | frames | core | border | noise | several clusters | differ |\n|---|---|---|---|---|---|---|---|---|"
    );
    for r in &run.rows {
        println!(
            "| {} | {} | {} | {} | {} | {} | {} | {} | {} |",
            r.name, r.sets, r.accepted, r.frames, r.core, r.border, r.noise, r.several, r.differ
        );
    }
    let refused: Vec<String> = (0..10).map(|k| format!("{}: {}", k, run.refused[k])).collect();
    println!("calls by the table's number (0 accepted): {}", refused.join(", "));
    println!("work words: {} calls, {} differ", words, wrong_words);
    let mut differ = run.rows.iter().map(|r| r.differ).sum::<u64>() + wrong_words;
    if let Some((line, wrong)) = &desk_line {
        println!("{}", line);
        differ += wrong;
    }
    let all: u64 = run.rows.iter().map(|r| r.sets).sum();
    println!(
        "compare: seed {}, {} sets, {} differences, {:.0} s",
        seed,
        all,
        differ,
        start.elapsed().as_secs_f64()
    );
    std::process::exit((differ > 0) as i32);
}
