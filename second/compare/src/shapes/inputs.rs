//! The input around the plan: lengths, cut streams, unknown events, and the
//! limit of 65,536 bytes.

use super::Shape;
use crate::events::{ordinary, Events, EVEN};
use crate::good;
use crate::rng::Rng;
use crate::spec::{self, input_with_length, Plan};

/// Events with a body: name, kind and length.
const EVENTS: [(&str, u8, usize); 4] = [
    ("reception", 16, 13),
    ("29-bit reception", 19, 15),
    ("response", 20, 14),
    ("no response", 21, 4),
];

pub fn shapes() -> Vec<Shape> {
    let mut shapes = vec![
        Shape::new("input: none", |_| Vec::new()),
        Shape::new("input: one byte", |rng| rng.bytes(1)),
        Shape::new("input: no plan", |_| vec![0, 0]),
        Shape::new("input: no plan, then events", |rng| {
            let plan = good::small_plan(rng);
            input_with_length(0, &[], &ordinary(rng, &plan, 5))
        }),
        Shape::new("input: a head alone", |rng| {
            let plan = Plan {
                order: rng.below(2) as u8,
                ..Plan::default()
            };
            plan.input(&ordinary(rng, &plan, 10))
        }),
        Shape::new("input: plan length past the end", |rng| {
            let plan = good::small_plan(rng).records().concat();
            let more = rng.pick(&[1, 2, 256, 40_000]);
            input_with_length(plan.len() + more, &plan, &[])
        }),
        Shape::new("input: cut inside the plan", |rng| {
            let plan = good::small_plan(rng);
            let mut input = plan.input(&[]);
            let length = rng.from_to(0, input.len() - 1);
            input.truncate(length);
            input
        }),
        Shape::new("input: plan length too large", |rng| {
            let plan = good::rich_plan(rng);
            let bytes = plan.records().concat();
            let events = ordinary(rng, &plan, 10);
            let more = rng.from_to(1, events.len().min(30));
            input_with_length(bytes.len() + more, &bytes, &events)
        }),
        Shape::new("input: plan length too small", |rng| {
            let plan = good::rich_plan(rng);
            let bytes = plan.records().concat();
            let less = rng.from_to(1, bytes.len().min(30));
            input_with_length(bytes.len() - less, &bytes, &ordinary(rng, &plan, 10))
        }),
        Shape::new("input: plan length by whole records too small", |rng| {
            let plan = good::rich_plan(rng);
            let mut records = plan.records();
            let bytes = records.concat();
            let kept = rng.from_to(1, records.len());
            records.truncate(kept);
            let length = records.concat().len();
            input_with_length(length, &bytes, &ordinary(rng, &plan, 10))
        }),
        Shape::new("input: plan length low byte first", |rng| {
            let plan = good::rich_plan(rng);
            let mut input = plan.input(&ordinary(rng, &plan, 10));
            input.swap(0, 1);
            input
        }),
        Shape::new("input: cut take", |rng| with_tail(rng, |_| vec![18])),
        Shape::new("input: cut anywhere", |rng| {
            let plan = good::rich_plan(rng);
            let mut input = plan.input(&ordinary(rng, &plan, 20));
            let length = rng.from_to(0, input.len() - 1);
            input.truncate(length);
            input
        }),
        Shape::new("input: unknown event", |rng| {
            with_tail(rng, |rng| {
                let mut tail = vec![rng.pick(&[0, 1, 6, 15, 22, 128, 255])];
                tail.extend([17, 17]);
                tail
            })
        }),
        Shape::new("input: unknown event first", |rng| {
            let plan = good::small_plan(rng);
            plan.input(&[rng.pick(&[0, 15, 22, 255]), 17, 17])
        }),
        Shape::new("input: an event byte changed", |rng| {
            let plan = good::rich_plan(rng);
            let mut events = ordinary(rng, &plan, 30);
            let place = rng.below(events.len());
            let any = rng.byte();
            events[place] = rng.pick(&[0, 16, 17, 18, 19, 20, 21, 22, any]);
            plan.input(&events)
        }),
        Shape::new("input: random events", |rng| {
            let plan = good::rich_plan(rng);
            let count = rng.below(60);
            let kinds = [16, 17, 18, 19, 20, 21];
            let events: Vec<u8> = (0..count).map(|_| rng.pick(&kinds)).collect();
            plan.input(&events)
        }),
        Shape::new("input: random bytes", |rng| {
            let count = rng.below(100);
            let mut input = vec![0, rng.below(20) as u8];
            input.extend(rng.bytes(count));
            input
        }),
        Shape::new("input: random small bytes", |rng| {
            let count = rng.below(40);
            let plan: Vec<u8> = (0..count).map(|_| rng.below(10) as u8).collect();
            input_with_length(plan.len(), &plan, &[17])
        }),
        Shape::new("input: 65536 bytes, the last event cut", |rng| {
            long_input(rng, 65_536, true)
        }),
        Shape::new("input: 65537 bytes of a bad plan", |rng| {
            let mut input = spec::input(&[vec![0]], &[]);
            input.resize(65_537, rng.pick(&[0, 17]));
            input
        }),
        Shape::new("input: 65536 bytes of a bad plan", |rng| {
            let mut input = spec::input(&[vec![0]], &[]);
            input.resize(65_536, rng.pick(&[0, 17]));
            input
        }),
    ];
    for (what, kind, whole) in EVENTS {
        for length in 1..whole {
            let name = format!("input: {what} cut after {length} bytes");
            shapes.push(Shape::new(&name, move |rng| {
                with_tail(rng, |_| vec![kind; length])
            }));
        }
    }
    for length in [65_535, 65_536, 65_537] {
        let name = format!("input: {length} bytes");
        shapes.push(Shape::new(&name, move |rng| long_input(rng, length, false)));
    }
    shapes
}

/// A rich plan, some events, and then these bytes.
fn with_tail(rng: &mut Rng, tail: impl Fn(&mut Rng) -> Vec<u8>) -> Vec<u8> {
    let plan = good::rich_plan(rng);
    let mut events = Events::new(&plan);
    events.ticks(1);
    let count = rng.below(10);
    events.some(rng, count, EVEN);
    events.bytes.extend(tail(rng));
    plan.input(&events.bytes)
}

/// An input of exactly so many bytes, mostly receptions; the last event is a
/// take, whole or cut.
fn long_input(rng: &mut Rng, length: usize, cut: bool) -> Vec<u8> {
    let plan = good::rich_plan(rng);
    let room = length - plan.input(&[]).len();
    let mut events = Events::new(&plan);
    while events.bytes.len() + 40 < room {
        match rng.below(8) {
            0 => events.ticks(1),
            1 => events.take(rng.below(plan.nodes) as u8),
            2 => events.miss(rng),
            _ => events.hit(rng),
        }
    }
    let ticks = room - 2 - events.bytes.len() + usize::from(cut);
    events.ticks(ticks);
    events.take(0);
    let mut input = plan.input(&events.bytes);
    input.truncate(length);
    input
}
