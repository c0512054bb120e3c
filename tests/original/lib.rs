//! The original over its stand-ins, and this library: what the comparison and the timing share.
#![allow(dead_code, unused_mut)]
pub mod appx_dbscan;
pub mod library;
pub mod random;
pub use appx_dbscan::{AppxDbscanParams, AppxDbscanValidParams};

use appx_dbscan::{AppxDbscan, AppxDbscanParamsError, Params};
use linfa::prelude::ParamGuard;
pub use linfa_nn::CommonNearestNeighbour as Search;
use ndarray::Array2;

/// The original's settings, or the number of its refusal: 1 to 3 of the table.
pub fn settings(min_points: usize, tolerance: f64, slack: f64, search: Search) -> Result<Params, u8> {
    AppxDbscan::params_with::<f64, _>(min_points, search)
        .tolerance(tolerance)
        .slack(slack)
        .check()
        .map_err(|e| match e {
            AppxDbscanParamsError::MinPoints => 1,
            AppxDbscanParamsError::Tolerance => 2,
            AppxDbscanParamsError::Slack => 3,
        })
}

/// The frames as the original takes them.
pub fn rows(points: &[i16], channels: usize) -> Array2<f64> {
    Array2::from_shape_vec((points.len() / channels, channels), points.iter().map(|c| *c as f64).collect()).unwrap()
}

/// Whether two lists of labels differ in the numbering only.
pub fn same_partition(a: &[Option<usize>], b: &[Option<usize>]) -> bool {
    let (mut to, mut from) = (std::collections::HashMap::new(), std::collections::HashMap::new());
    a.len() == b.len()
        && a.iter().zip(b).all(|(x, y)| match (x, y) {
            (None, None) => true,
            (Some(x), Some(y)) => *to.entry(*x).or_insert(*y) == *y && *from.entry(*y).or_insert(*x) == *x,
            _ => false,
        })
}
