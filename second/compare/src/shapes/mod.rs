//! The shapes of the cases, in rotation.
//!
//! A case is made from its case seed alone. The low 16 bits of a case seed
//! are the place of its shape in the list of all shapes; the whole seed drives
//! the random choices inside the shape. So each shape comes once in a round of
//! the list, whatever the seed of the run.

mod ages;
mod copies;
mod fields;
mod followers;
mod format_calls;
mod format_faults;
mod format_places;
mod format_plans;
mod format_sources;
mod general;
mod inputs;
mod limits;
mod lin_calls;
mod lin_plans;
mod lin_requests;
mod lin_sources;
mod order_of_tests;
mod owners;
mod places;
mod queues;
mod records;
mod restarts;
mod showcase;
mod turns;

use crate::rng::{mix, Rng};

type Make = Box<dyn Fn(&mut Rng) -> Vec<u8> + Send + Sync>;

/// A named way to make an input.
pub struct Shape {
    pub name: String,
    make: Make,
}

impl Shape {
    fn new(name: &str, make: impl Fn(&mut Rng) -> Vec<u8> + Send + Sync + 'static) -> Shape {
        Shape {
            name: name.to_string(),
            make: Box::new(make),
        }
    }
}

/// One input and where it comes from.
pub struct Case {
    pub seed: u64,
    pub shape: String,
    pub input: Vec<u8>,
}

/// There are fewer shapes than this, whatever tickets are to come.
pub const MOST_SHAPES: usize = 1000;

/// So many cases meet each shape at least twice.
pub const CASES: u64 = 2 * MOST_SHAPES as u64;

/// All shapes: after every second special one comes an ordinary one.
pub struct Shapes {
    shapes: Vec<Shape>,
}

impl Shapes {
    pub fn all() -> Shapes {
        let mut special = Vec::new();
        special.extend(showcase::shapes());
        special.extend(copies::shapes());
        special.extend(restarts::shapes());
        special.extend(places::shapes());
        special.extend(ages::shapes());
        special.extend(limits::shapes());
        special.extend(fields::shapes());
        special.extend(followers::shapes());
        special.extend(owners::shapes());
        special.extend(order_of_tests::shapes());
        special.extend(records::shapes());
        special.extend(inputs::shapes());
        special.extend(lin_calls::shapes());
        special.extend(lin_requests::shapes());
        special.extend(lin_sources::shapes());
        special.extend(lin_plans::shapes());
        special.extend(format_plans::shapes());
        special.extend(format_faults::shapes());
        special.extend(format_calls::shapes());
        special.extend(format_places::shapes());
        special.extend(format_sources::shapes());
        special.extend(queues::shapes());
        special.extend(turns::shapes());

        let mut ordinary = Vec::new();
        let mut shapes = Vec::new();
        for (number, shape) in special.into_iter().enumerate() {
            shapes.push(shape);
            if number % 2 == 1 {
                if ordinary.is_empty() {
                    ordinary = general::shapes();
                }
                shapes.extend(ordinary.pop());
            }
        }
        Shapes { shapes }
    }

    pub fn count(&self) -> usize {
        self.shapes.len()
    }

    pub fn names(&self) -> impl Iterator<Item = &str> {
        self.shapes.iter().map(|shape| shape.name.as_str())
    }

    /// The case seed of a case of a run: mixed from the seed of the run and
    /// the index, with the place of the shape in the low 16 bits.
    pub fn case_seed(&self, run_seed: u64, index: u64) -> u64 {
        let mixed = mix(mix(run_seed).wrapping_add(index));
        let place = index % self.shapes.len() as u64;
        (mixed & !0xFFFF) | place
    }

    pub fn case(&self, seed: u64) -> Case {
        let place = (seed & 0xFFFF) as usize % self.shapes.len();
        let shape = &self.shapes[place];
        Case {
            seed,
            shape: shape.name.clone(),
            input: (shape.make)(&mut Rng::new(seed)),
        }
    }
}
