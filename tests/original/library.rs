//! This library's C interface, as include/appx_dbscan.h has it.
#[repr(C)]
#[derive(Clone, Copy, Debug, PartialEq)]
pub struct Answer {
    /// 0 where the run was accepted
    pub refusal: u8,
    pub clusters: usize,
    pub core_frames: usize,
}

extern "C" {
    fn appx_dbscan_transform(
        points: *const i16,
        points_len: usize,
        channels: usize,
        min_points: usize,
        tolerance: f64,
        slack: f64,
        labels: *mut u16,
        labels_len: usize,
        kinds: *mut u8,
        kinds_len: usize,
        work: *mut u16,
        work_len: usize,
    ) -> Answer;
    fn appx_dbscan_work_words(frames: usize, s: usize) -> usize;
}

pub fn transform(
    points: &[i16],
    channels: usize,
    min_points: usize,
    tolerance: f64,
    slack: f64,
    labels: &mut [u16],
    kinds: &mut [u8],
    work: &mut [u16],
) -> Answer {
    unsafe {
        appx_dbscan_transform(
            points.as_ptr(),
            points.len(),
            channels,
            min_points,
            tolerance,
            slack,
            labels.as_mut_ptr(),
            labels.len(),
            kinds.as_mut_ptr(),
            kinds.len(),
            work.as_mut_ptr(),
            work.len(),
        )
    }
}

/// What the library says of the work words that a run needs.
pub fn words_told(frames: usize, s: usize) -> usize {
    unsafe { appx_dbscan_work_words(frames, s) }
}

/// Work words that a run needs: frames × (16 + 4 × (L + 1)), L = 1 + s.
pub fn work_words(frames: usize, s: usize) -> usize {
    frames * (16 + 4 * (s + 2))
}
