// The one table of what is compared: a call joins here, and as soon as the C face defines it.
use crate::calls::{self, Side};
use crate::case::{Case, Outcome};
use crate::make;
use crate::rng::Rng;

#[cfg(rust)]
use crate::beside;

type Rust = Option<fn(&Case) -> Option<Outcome>>;

pub struct Compared {
    pub name: &'static str,
    // this many times the cases asked for
    pub times: usize,
    pub make: fn(&mut Rng) -> Case,
    pub ask: fn(&Side, &Case) -> Outcome,
    pub rust: Rust,
}

macro_rules! beside {
    ($name:ident, $make:ident) => {
        Compared {
            name: concat!("akf_", stringify!($name)),
            times: 1,
            make: make::$make,
            ask: calls::$name,
            #[cfg(rust)]
            rust: Some(beside::$name),
            #[cfg(not(rust))]
            rust: None,
        }
    };
}

macro_rules! alone {
    ($times:expr, $name:ident, $make:ident) => {
        Compared { name: concat!("akf_", stringify!($name)), times: $times, make: make::$make, ask: calls::$name, rust: None }
    };
}

pub const COMPARED: &[Compared] = &[
    beside!(index64_new, for_new),
    beside!(decode_coords, for_key),
    beside!(neighbors_index64, for_neighbors),
    // the Rust calls its library: the plain reading is the hardware's root
    alone!(20, root, for_root),
    beside!(snap_to_nearest_bcc, for_snap),
    beside!(physical_to_bcc_voxel, for_physical),
    beside!(is_valid_bcc, for_snap),
    beside!(update_from_depth, for_fuse),
    beside!(update_from_depth_ray, for_ray),
    beside!(batch_update, for_batch),
    beside!(tsdf_get_distance, for_question),
    beside!(tsdf_get_weight, for_question),
    beside!(is_surface_voxel, for_question),
    beside!(tsdf_stats, for_stats),
    beside!(get_surface_voxels, for_surface),
    beside!(get_zero_crossing_edges, for_edges),
    beside!(compute_from_tsdf, for_march),
    beside!(esdf_get_distance, for_marched_question),
    beside!(is_free_space, for_marched_question),
    beside!(get_gradient, for_marched_question),
    beside!(get_voxels_within_distance, for_within),
    beside!(esdf_stats, for_marched_stats),
    beside!(extract_mesh_from_tsdf, for_mesh),
    // the Rust has no closed mesh: the plain reading is the judge
    alone!(1, extract_closed_mesh, for_closed_mesh),
    alone!(1, extract_turned_mesh, for_closed_mesh),
    // the Rust has no list of groups
    alone!(1, cell_edges, for_groups),
    beside!(surface_area, for_shape),
    beside!(bounding_box, for_shape),
    beside!(mesh_stats, for_normals),
    // the Rust's writer is not in the folder, and it has no reader: the plain reading is the judge
    alone!(1, export_mesh_stl, for_export),
    alone!(1, import_mesh_stl, for_import),
];

pub enum Judged {
    Same,
    // a parting that document 01 states
    Stated,
    Differs(String),
}

// Minima and maxima keep their earlier zero by document 01; the Rust puts -0 below +0. Nothing else may differ.
const SMALLEST: [&str; 4] = ["smallest", "min_x", "min_y", "min_z"];
const LARGEST: [&str; 4] = ["largest", "max_x", "max_y", "max_z"];
const MINUS_ZERO: u64 = 0x8000_0000;

fn stated(name: &str, plain: u64, rust: u64) -> bool {
    SMALLEST.contains(&name) && plain == 0 && rust == MINUS_ZERO || LARGEST.contains(&name) && plain == MINUS_ZERO && rust == 0
}

// The plain reading's outcome against another side's. `rust`: stated partings are allowed, and an answer may be left untold.
pub fn judge(plain: &Outcome, other: &Outcome, rust: bool) -> Judged {
    if plain.answer != other.answer && !(rust && other.answer.is_none()) {
        return Judged::Differs(format!("answer {:?}, document 01 {:?}", other.answer, plain.answer));
    }
    if plain.numbers.len() != other.numbers.len() || plain.lists.len() != other.lists.len() {
        return Judged::Differs("not the same numbers and lists".to_string());
    }
    let mut parted = false;
    for (p, o) in plain.numbers.iter().zip(&other.numbers) {
        if p.0 != o.0 {
            return Judged::Differs(format!("{} in the place of {}", o.0, p.0));
        }
        if p.1 != o.1 {
            if !(rust && stated(p.0, p.1, o.1)) {
                return Judged::Differs(format!("{} is {:x}, document 01 {:x}", p.0, o.1, p.1));
            }
            parted = true;
        }
    }
    for (p, o) in plain.lists.iter().zip(&other.lists) {
        if p.0 != o.0 || p.1.len() != o.1.len() {
            return Judged::Differs(format!("list {} of {}, document 01 {} of {}", o.0, o.1.len(), p.0, p.1.len()));
        }
        if let Some(i) = (0..p.1.len()).find(|&i| p.1[i] != o.1[i]) {
            return Judged::Differs(format!("{}[{i}] is {:x}, document 01 {:x}", p.0, o.1[i], p.1[i]));
        }
    }
    if parted {
        Judged::Stated
    } else {
        Judged::Same
    }
}
