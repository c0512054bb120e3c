// Case (h) of the specification: one channel, frames -1, 1 and 3, min_points 3, tolerance 2, slack 1.

#[repr(C)]
struct Outcome {
    refusal: u8,
    clusters: usize,
    core_frames: usize,
}

extern "C" {
    fn appx_dbscan_transform(
        points: *const i16,
        points_len: usize,
        channels: usize,
        min_points: usize,
        tolerance: f64,
        slack: f64,
        labels: *mut u16,
        labels_len: usize,
        kinds: *mut u8,
        kinds_len: usize,
        work: *mut u16,
        work_len: usize,
    ) -> Outcome;
    fn appx_dbscan_work_words(frames: usize, s: usize) -> usize;
}

struct Settings {
    channels: usize,
    min_points: usize,
    tolerance: f64,
    slack: f64,
}

fn transform(points: &[i16], p: Settings, labels: &mut [u16], kinds: &mut [u8], work: &mut [u16]) -> Outcome {
    // Each pointer and length is a whole slice, and the exclusive borrows keep them apart.
    unsafe {
        appx_dbscan_transform(
            points.as_ptr(),
            points.len(),
            p.channels,
            p.min_points,
            p.tolerance,
            p.slack,
            labels.as_mut_ptr(),
            labels.len(),
            kinds.as_mut_ptr(),
            kinds.len(),
            work.as_mut_ptr(),
            work.len(),
        )
    }
}

fn main() {
    let points = [-1, 1, 3];
    let mut labels = [0; 3];
    let mut kinds = [0; 3];
    let mut work = vec![0; unsafe { appx_dbscan_work_words(points.len(), 0) }];
    let p = Settings {
        channels: 1,
        min_points: 3,
        tolerance: 2.0,
        slack: 1.0,
    };

    let outcome = transform(&points, p, &mut labels, &mut kinds, &mut work);
    if outcome.refusal != 0 {
        println!("ee{:02x}", outcome.refusal);
        return;
    }
    for (kind, label) in kinds.iter().zip(&labels) {
        println!("{kind:02x}{label:04x}");
    }
    println!("{:04x}{:04x}", outcome.clusters, outcome.core_frames);
}
