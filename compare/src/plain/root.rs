// Square root: the nearest binary32. The hardware's is IEEE 754's.
use super::*;

pub fn root(x: f32, root: &mut f32) -> u32 {
    *root = 0.0;
    // -0 is not below zero, and gives -0; +inf gives +inf
    if x.is_nan() || x < 0.0 {
        return 5;
    }
    *root = x.sqrt();
    DONE
}
