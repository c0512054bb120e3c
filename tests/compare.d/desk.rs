//! The desk program as a process: sets as desk inputs, whole and damaged, against this reading of them and the original's labels.
use crate::{by_original, sets};
use original::random::Random;
use std::io::Write;
use std::process::{Command, Stdio};

fn hex(digits: &[u8]) -> Option<usize> {
    digits.iter().try_fold(0, |n, b| match b {
        b'0'..=b'9' => Some(n * 16 + (b - b'0') as usize),
        b'a'..=b'f' => Some(n * 16 + (b - b'a') as usize + 10),
        _ => None,
    })
}

struct Input {
    channels: usize,
    min_points: usize,
    t: usize,
    s: usize,
    points: Vec<i16>,
}

/// The input's reading; None where it is malformed.
fn read(bytes: &[u8]) -> Option<Input> {
    let text = bytes.strip_suffix(b"\n")?;
    let mut lines = text.split(|b| *b == b'\n');
    let one = lines.next()?;
    if one.len() != 12 {
        return None;
    }
    let (channels, min_points, t, s) = (hex(&one[..2])?, hex(&one[2..6])?, hex(&one[6..10])?, hex(&one[10..])?);
    if !(1..=4).contains(&channels) {
        return None;
    }
    let mut points = Vec::new();
    for line in lines {
        if line.len() != 4 * channels {
            return None;
        }
        for count in line.chunks(4) {
            points.push(hex(count)? as u16 as i16);
        }
    }
    if points.len() > 256 * channels {
        return None;
    }
    Some(Input {
        channels,
        min_points,
        t,
        s,
        points,
    })
}

fn expected(bytes: &[u8]) -> Result<String, String> {
    let Some(i) = read(bytes) else { return Ok("ee0a\n".into()) };
    let refusal = if i.min_points <= 1 {
        1
    } else if i.t == 0 {
        2
    } else if i.s > 10 {
        5
    } else {
        0
    };
    if refusal != 0 {
        return Ok(format!("ee{:02x}\n", refusal));
    }
    let o = by_original(&i.points, i.channels, i.min_points, i.t as f64, 1.0 / (1u64 << i.s) as f64, 2)?;
    let mut out: String = o
        .kinds
        .iter()
        .zip(&o.labels)
        .map(|(k, l)| format!("{:02x}{:04x}\n", k, l))
        .collect();
    out += &format!("{:04x}{:04x}\n", o.clusters, o.cores);
    Ok(out)
}

fn damage(rng: &mut Random, bytes: &mut Vec<u8>) {
    let at = rng.below(bytes.len().max(1));
    match rng.below(8) {
        0 => bytes.truncate(at),
        1 if at < bytes.len() => {
            bytes.remove(at);
        }
        2 => bytes.insert(at, rng.pick(b"0aA\n g")),
        3 if at < bytes.len() => bytes[at] = rng.next() as u8,
        4 if at < bytes.len() => bytes[at] = rng.pick(b"0123456789abcdefABFGg/:`@\n\r \0\xff"),
        5 => bytes.push(rng.pick(b"\n0\0")),
        6 if bytes.len() > 1 => bytes[1] = rng.pick(b"01234567f"),
        _ => {
            let line = bytes.iter().position(|b| *b == b'\n').map_or(bytes.len(), |k| k + 1);
            let copy = bytes[line..].to_vec();
            bytes.extend(copy);
        }
    }
}

/// Runs inputs through the program; a line on them, and how many differ.
pub fn compare(program: &str, rng: &mut Random, count: usize) -> (String, u64) {
    let (mut wrong, mut malformed, mut refused) = (0, 0, 0);
    for k in 0..count {
        let c = match rng.below(5) {
            0 => sets::edges(rng),
            1 => sets::reach(rng),
            2 => sets::clouds(rng),
            3 => sets::heaps(rng),
            _ => {
                let n = rng.pick(&[0, 1, 254, 255, 256, 257, 258]);
                sets::many(rng, n)
            }
        };
        let s = crate::power(c.slack).unwrap();
        let (min_points, t, s) = match rng.below(12) {
            0 => (rng.below(2), c.tolerance as usize, rng.below(256)),
            1 => (c.min_points, 0, rng.below(256)),
            2 => (c.min_points, c.tolerance as usize, rng.below(256)),
            _ => (c.min_points, c.tolerance as usize, s),
        };
        let mut bytes = format!("{:02x}{:04x}{:04x}{:02x}\n", c.channels, min_points.min(65535), t, s).into_bytes();
        for frame in c.points.chunks(c.channels) {
            for x in frame {
                write!(bytes, "{:04x}", *x as u16).unwrap();
            }
            bytes.push(b'\n');
        }
        for _ in 0..rng.pick(&[0, 0, 1, 1, 2]) {
            damage(rng, &mut bytes);
        }
        let mut child = Command::new(program)
            .stdin(Stdio::piped())
            .stdout(Stdio::piped())
            .spawn()
            .expect("the desk program starts");
        // the program may stop reading what is too long for it
        let _ = child.stdin.take().unwrap().write_all(&bytes);
        let out = child.wait_with_output().expect("the desk program ends");
        let expected = expected(&bytes);
        malformed += (expected.as_deref() == Ok("ee0a\n")) as u64;
        refused += expected.as_deref().map_or(0, |e| e.starts_with("ee") as u64);
        if expected.as_deref().map(|e| e.as_bytes()) != Ok(&out.stdout[..]) {
            wrong += 1;
            if wrong <= 5 {
                println!(
                    "DIFFERENCE in desk input {}: {:?}\n  program {:?}\n  expected {:?}",
                    k,
                    String::from_utf8_lossy(&bytes),
                    String::from_utf8_lossy(&out.stdout),
                    expected
                );
            }
        }
    }
    (
        format!(
            "desk program: {} inputs, {} malformed, {} more refused, {} differ",
            count,
            malformed,
            refused - malformed,
            wrong
        ),
        wrong,
    )
}
