// Runs beside the Rust: the plain reading of document 01, the Rust with ordered tables, and the C face, over the same cases.
pub mod calls;
pub mod case;
pub mod closing;
pub mod face;
pub mod inputs;
pub mod last;
pub mod make;
pub mod plain;
pub mod rng;
pub mod round;
pub mod samples;
pub mod shape;
pub mod shrink;
pub mod sides;
pub mod table;
pub mod winding;

#[cfg(rust)]
pub mod beside;
#[cfg(rust)]
pub mod large;
#[cfg(rust)]
pub mod partings;
#[cfg(rust)]
pub mod vectors;

// The Rust with its maps and sets ordered. Its text is not this repository's, so its warnings are not ours to mend.
#[cfg(rust)]
#[allow(warnings)]
#[rustfmt::skip]
pub mod ordered {
    include!(concat!(env!("OUT_DIR"), "/ordered.rs"));
}

// The Rust with its own hash tables.
#[cfg(rust)]
#[allow(warnings)]
#[rustfmt::skip]
pub mod hashed {
    include!(concat!(env!("OUT_DIR"), "/hashed.rs"));
}

// The plain reading with one sentence of document 01 misread, over and over.
#[cfg(misread)]
#[rustfmt::skip]
pub mod misread {
    include!(concat!(env!("OUT_DIR"), "/misread.rs"));
}
