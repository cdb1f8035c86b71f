//! The workloads of a generator: which calls are frequent, and in which bounds a stream's shape lies.

/// How a generator behaves.
pub struct Workload {
    /// How often each of the calls 01 to 14 (hexadecimal) is tried, in order.
    pub weights: [u32; 20],
    /// The least and greatest measure of a stream's shape.
    pub columns: (u32, u32),
    pub ranges: (u32, u32),
    pub capacity: (u32, u32),
    pub spares: (u32, u32),
    /// Whether most shapes that are not a stream's lie in these bounds too.
    pub bounds_all: bool,
    /// The share of the rows inserted before other calls become frequent, in percent.
    pub early_rows: u32,
    /// The greatest step from the last commit's stamp to the next.
    pub step: u32,
    /// Whether most settings lie on the other side of a level than the value before them.
    pub swings: bool,
    /// The calls of a stream above those of others.
    pub more: u32,
}

const EVEN: Workload = Workload {
    weights: [3, 8, 16, 2, 8, 3, 5, 6, 5, 4, 6, 4, 3, 6, 3, 5, 3, 5, 5, 6],
    columns: (1, 4),
    ranges: (1, 2),
    capacity: (8, 64),
    spares: (0, 8),
    bounds_all: false,
    early_rows: 0,
    step: 3,
    swings: false,
    more: 0,
};

const SMALL_TAIL: Workload = Workload {
    weights: [3, 8, 20, 5, 8, 4, 5, 6, 5, 2, 3, 2, 2, 6, 4, 5, 4, 4, 5, 6],
    columns: (1, 3),
    ranges: (1, 1),
    capacity: (1, 8),
    ..EVEN
};

/// Many of the places taken, and merges between the openings. Old scans keep pages, so there are
/// more spares.
const MANY_SCANS: Workload = Workload {
    weights: [2, 5, 16, 2, 9, 2, 2, 4, 2, 20, 10, 6, 4, 12, 6, 3, 2, 3, 4, 5],
    spares: (1, 12),
    ..EVEN
};

const MANY_ABORTS: Workload = Workload {
    weights: [5, 8, 18, 4, 4, 10, 5, 6, 5, 3, 4, 3, 3, 7, 3, 6, 3, 8, 7, 9],
    capacity: (24, 64),
    ..EVEN
};

const MANY_MERGES: Workload = Workload {
    weights: [4, 4, 22, 1, 11, 2, 4, 6, 2, 4, 6, 3, 4, 20, 6, 8, 5, 5, 5, 6],
    columns: (1, 3),
    ranges: (1, 1),
    capacity: (32, 64),
    ..EVEN
};

const MANY_TRANSACTIONS: Workload = Workload {
    weights: [10, 10, 20, 4, 5, 2, 5, 4, 10, 2, 3, 2, 2, 5, 2, 4, 3, 11, 14, 6],
    ..EVEN
};

const MANY_DELETES: Workload =
    Workload { weights: [4, 12, 12, 12, 9, 4, 6, 8, 6, 3, 5, 4, 3, 5, 3, 5, 2, 9, 5, 9], ..EVEN };

const FULL_ROWS: Workload = Workload {
    weights: [3, 12, 16, 3, 8, 3, 5, 6, 5, 4, 6, 5, 3, 6, 3, 5, 3, 4, 5, 5],
    ranges: (1, 1),
    early_rows: 100,
    ..EVEN
};

const SEVERAL_RANGES: Workload = Workload {
    weights: [3, 3, 24, 2, 9, 3, 5, 6, 5, 4, 6, 4, 3, 14, 4, 8, 5, 5, 5, 6],
    columns: (1, 2),
    ranges: (2, 4),
    capacity: (1, 24),
    early_rows: 80,
    ..EVEN
};

const LATE_STAMPS: Workload = Workload { step: 1 << 29, ..EVEN };

/// A few rows of several columns, set, merged and read back at old stamps and by old scans. In a
/// small tail, or with few pages, there would be little to read back.
const OLD_VERSIONS: Workload = Workload {
    weights: [2, 3, 28, 1, 24, 4, 4, 16, 10, 5, 20, 1, 1, 24, 2, 2, 1, 12, 3, 14],
    columns: (2, 3),
    ranges: (1, 1),
    capacity: (32, 64),
    spares: (4, 12),
    bounds_all: true,
    early_rows: 6,
    ..EVEN
};

/// One or two gates of one or two columns, set again and again to either side of a level, so that the
/// crossings of one cell outnumber the places that gatebook lends. Its streams are longer, as each
/// crossing is a transaction.
const CROSSINGS: Workload = Workload {
    weights: [1, 1, 16, 2, 26, 2, 1, 2, 2, 3, 4, 3, 2, 4, 2, 1, 1, 16, 2, 8],
    columns: (1, 2),
    ranges: (1, 1),
    capacity: (52, 64),
    spares: (1, 8),
    bounds_all: true,
    early_rows: 2,
    swings: true,
    more: 220,
    ..EVEN
};

/// How many workloads there are; a seed's remainder by it chooses one.
pub const COUNT: u64 = WORKLOADS.len() as u64;

const WORKLOADS: [&Workload; 12] = [
    &EVEN,
    &SMALL_TAIL,
    &MANY_SCANS,
    &MANY_ABORTS,
    &MANY_MERGES,
    &MANY_TRANSACTIONS,
    &MANY_DELETES,
    &FULL_ROWS,
    &SEVERAL_RANGES,
    &LATE_STAMPS,
    &CROSSINGS,
    &OLD_VERSIONS,
];

/// The workload of a seed.
pub fn of(seed: u64) -> &'static Workload {
    WORKLOADS[(seed % COUNT) as usize]
}
