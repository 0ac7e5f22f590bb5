// What a side hands back as the turned mesh has one winding, and looks outwards. Judged from its own lists, over
// the cases of the closed mesh: random fields, bodies with holes, damaged tables.
use crate::calls::{extract_turned_mesh, Side};
use crate::case::{Case, Outcome};
use crate::make;
use crate::plain::table::rows_of;
use crate::plain::DONE;
use crate::rng::Rng;
use crate::sides::{Directions, Field, Kinds};

// What was asked, and how many sides and triangles run another way than they should.
#[derive(Default)]
pub struct Windings {
    cases: usize,
    refused: usize,
    meshes: usize,
    kinds: Kinds,
    pub directions: Directions,
}

// Edges and triangles as they stand in the lent lists.
fn lists(o: &Outcome) -> (Vec<(u64, u64)>, Vec<[u32; 3]>) {
    let (edges, triangles) = (o.numbers[0].1 as usize, o.numbers[1].1 as usize);
    let named = |name: &str| &o.lists.iter().find(|l| l.0 == name).expect("a list of the mesh").1;
    let [first, second, t0, t1, t2] = ["first", "second", "t0", "t1", "t2"].map(named);
    ((0..edges).map(|i| (first[i], second[i])).collect(), (0..triangles).map(|i| [t0, t1, t2].map(|l| l[i] as u32)).collect())
}

impl Windings {
    pub fn add(&mut self, side: &Side, c: &Case) {
        let made = extract_turned_mesh(side, c);
        self.cases += 1;
        if made.answer != Some(DONE) {
            self.refused += 1;
            return;
        }
        let (rows, (edges, triangles)) = (rows_of(c.table()), lists(&made));
        if !triangles.is_empty() {
            self.meshes += 1;
            self.kinds.add(&rows, &edges);
            self.directions.add(&Field::of(&rows), &edges, &triangles);
        }
    }

    pub fn told(&self) -> String {
        let Windings { cases, refused, meshes, kinds, directions } = self;
        let wrong = directions.failures();
        format!("{cases} fields, {refused} refused, {meshes} with triangles ({}); {}: {wrong} wrong", kinds.told(), directions.told())
    }
}

pub fn run(side: &Side, seed: u64, cases: usize) -> Windings {
    let mut r = Rng::new(seed, "winding");
    let mut windings = Windings::default();
    (0..cases).for_each(|_| windings.add(side, &make::for_closed_mesh(&mut r)));
    windings
}
