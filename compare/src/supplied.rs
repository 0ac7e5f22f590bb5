// What the Rust names and its folder lacks, written from document 01 (none of it is the library's own text):
// `error`, `morton` by document 01's bit order, an ordered float, and the counts of a march.

pub mod error {
    #[derive(Debug)]
    pub enum Error {
        InvalidScaleTier(String),
        InvalidLOD(String),
        InvalidParity { x: i32, y: i32, z: i32 },
        OutOfRange(String),
        DecodingError(String),
    }
    pub type Result<T> = std::result::Result<T, Error>;
}

pub mod morton {
    // Bit i of x, y, z stands at 3i, 3i+1, 3i+2.
    pub fn morton_encode(x: u16, y: u16, z: u16) -> u64 {
        spread(x) | spread(y) << 1 | spread(z) << 2
    }

    pub fn morton_decode(m: u64) -> (u16, u16, u16) {
        (gather(m), gather(m >> 1), gather(m >> 2))
    }

    fn spread(v: u16) -> u64 {
        let mut s = v as u64;
        s = (s | s << 16) & 0x0000_ff00_00ff;
        s = (s | s << 8) & 0x00f0_0f00_f00f;
        s = (s | s << 4) & 0x0c30_c30c_30c3;
        (s | s << 2) & 0x2492_4924_9249
    }

    fn gather(m: u64) -> u16 {
        let mut s = m & 0x2492_4924_9249;
        s = (s | s >> 2) & 0x0c30_c30c_30c3;
        s = (s | s >> 4) & 0x00f0_0f00_f00f;
        s = (s | s >> 8) & 0x0000_ff00_00ff;
        (s | s >> 16) as u16
    }
}

pub mod ordered_float {
    use std::cmp::Ordering;

    // Zeros equal, NaN above everything. A march's estimates are sizes, so neither is ever asked.
    #[derive(Debug, Clone, Copy)]
    pub struct OrderedFloat<T>(pub T);

    impl PartialEq for OrderedFloat<f32> {
        fn eq(&self, other: &Self) -> bool {
            self.cmp(other) == Ordering::Equal
        }
    }
    impl Eq for OrderedFloat<f32> {}
    impl PartialOrd for OrderedFloat<f32> {
        fn partial_cmp(&self, other: &Self) -> Option<Ordering> {
            Some(self.cmp(other))
        }
    }
    impl Ord for OrderedFloat<f32> {
        fn cmp(&self, other: &Self) -> Ordering {
            self.0.partial_cmp(&other.0).unwrap_or_else(|| self.0.is_nan().cmp(&other.0.is_nan()))
        }
    }
}

// What a march tells while it runs: its takings, and which of the two rooms it would have outgrown first.
pub mod counted {
    use std::cell::Cell;

    #[derive(Clone, Copy, Default)]
    pub struct March {
        pub stored_room: usize,
        pub waiting_room: usize,
        pub takings: usize,
        pub outgrown: Option<u32>,
    }

    thread_local! {
        static MARCH: Cell<March> = const { Cell::new(March { stored_room: 0, waiting_room: 0, takings: 0, outgrown: None }) };
    }

    pub fn begin(stored_room: usize, waiting_room: usize) {
        MARCH.set(March { stored_room, waiting_room, takings: 0, outgrown: None });
    }

    pub fn end() -> March {
        MARCH.get()
    }

    pub fn taking() {
        let mut m = MARCH.get();
        m.takings += 1;
        MARCH.set(m);
    }

    // Ends the march by unwinding, without a word.
    fn outgrown(mut m: March, by: u32) {
        m.outgrown = Some(by);
        MARCH.set(m);
        std::panic::resume_unwind(Box::new(()));
    }

    pub fn stored(rows: usize) {
        let m = MARCH.get();
        if rows > m.stored_room {
            outgrown(m, 6);
        }
    }

    pub fn waiting(cells: usize) {
        let m = MARCH.get();
        if cells > m.waiting_room {
            outgrown(m, 8);
        }
    }
}
