// A plain reading of document 01, of what document 02 adds to it, and of the turned mesh, written from their text alone: lists
// are searched from the front and everything is worked out by the sentence that asks for it. It judges what the Rust
// does not settle: refusals, rooms, and every place of every lent list. The functions `pub fn` of this module's files
// that `calls.rs` names take what the C face takes, slices for pointers and lengths.
pub mod closed;
pub mod fuse;
pub mod keys;
pub mod march;
pub mod marched;
pub mod mesh;
pub mod root;
pub mod snap;
pub mod stl;
pub mod table;
pub mod turned;

pub const DONE: u32 = 0;
pub const FAR: u32 = 100;
pub const ABSENT: u32 = 101;
pub const NEW: u32 = 102;
pub const CHANGED: u32 = 103;

pub const ROWS_LIMIT: usize = 65_536;
pub const LISTS_LIMIT: usize = 1_048_576;
// of a list of bytes
pub const FILE_LIMIT: usize = 52_428_884;

// The work, or document 01's number of a refusal.
pub type Done<T> = Result<T, u32>;

pub fn number<T>(done: &Done<T>) -> u32 {
    match done {
        Ok(_) => DONE,
        Err(n) => *n,
    }
}

// Refuses with `n` unless the test holds.
pub fn need(test: bool, n: u32) -> Done<()> {
    if test {
        Ok(())
    } else {
        Err(n)
    }
}

// Lent lists of one set: equal lengths, within the limit.
pub fn one_set(lengths: &[usize], limit: usize) -> bool {
    lengths.iter().all(|&l| l == lengths[0] && l <= limit)
}

// The values, then zeros to the end.
pub fn fill<T: Copy + Default>(list: &mut [T], values: &[T]) {
    for i in 0..list.len() {
        list[i] = if i < values.len() { values[i] } else { T::default() };
    }
}
