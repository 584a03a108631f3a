//! The cases: what is handed to the calls, made from a seed. The modules that are pub make tests/replay's days, too.

mod begins;
pub mod bytes;
pub mod cons;
mod downlinks;
mod examples;
mod frames;
mod images;
pub mod limits;
mod near;
pub mod node;
pub mod payloads;
mod queues;
pub mod random;
mod runs;
pub mod sessions;
pub mod spoil;
mod sweep_downlinks;
mod sweep_elements;
mod sweep_fields;
mod sweep_images;
mod sweep_numbers;
mod sweep_queues;
mod sweep_records;
mod sweep_sessions;
mod sweep_tables;
mod tables;
mod traces;
pub mod values;
mod writes;

use crate::stream::Stream;
use queues::Queues;
use random::Random;

/// The fixed examples, the sweeps over every edge, then rounds of random cases until as many messages were handed over.
pub fn all(stream: &mut Stream, seed: u64, messages: u64) {
    examples::all(stream);
    let mut random = Random(seed);
    sweep_elements::all(stream, &mut random);
    sweep_fields::all(stream, &mut random);
    sweep_downlinks::all(stream, &mut random);
    sweep_images::all(stream, &mut random);
    sweep_sessions::all(stream, &mut random);
    sweep_queues::all(stream, &mut random);
    sweep_tables::all(stream);
    sweep_numbers::all(stream, &mut random);
    sweep_records::all(stream, &mut random);
    let mut queues = Queues::new();
    while stream.messages < messages {
        round(stream, &mut random, &mut queues);
    }
}

/// One round has some of everything.
fn round(stream: &mut Stream, random: &mut Random, queues: &mut Queues) {
    (0..4).for_each(|_| frames::one(stream, random));
    (0..40).for_each(|_| payloads::one(stream, random));
    (0..26).for_each(|_| writes::one(stream, random));
    (0..14).for_each(|_| sessions::arrive(stream, random));
    (0..5).for_each(|_| begins::one(stream, random));
    (0..2).for_each(|_| sessions::lost(stream, random));
    runs::one(stream, random);
    queues.run(stream, random);
    (0..10).for_each(|_| tables::one(stream, random));
    tables::run(stream, random);
    (0..4).for_each(|_| traces::one(stream, random));
    traces::run(stream, random);
}
