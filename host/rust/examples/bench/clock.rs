//! Times of calls, in nanoseconds.

use std::fmt;
use std::hint::black_box;
use std::time::{Duration, Instant};

use model::{Call, Memory};

use crate::library;

/// How long the library and the model are timed together.
const SPAN: Duration = Duration::from_millis(150);
/// The least number of rounds.
const ROUNDS: usize = 15;
/// Copies of a store that are timed together take about so many bytes.
const TOGETHER: usize = 16_384;

/// A call's time in the library and in the model.
pub struct Times {
    pub library: f64,
    pub model: f64,
}

impl Times {
    /// Times a call, which must be accepted. In turn, many copies of the store
    /// are made anew, and the call is made on each; the least time counts.
    pub fn of(memory: &Memory, call: &Call, lent: usize) -> Times {
        let mut buffer = vec![0; lent];
        let by_library = |memory: &mut Memory, buffer: &mut [u8]| {
            library::perform(call, &mut memory.lend(), buffer).report
        };
        let by_model = |memory: &mut Memory, buffer: &mut [u8]| {
            u32::from(call.perform(&mut memory.lend(), buffer).report)
        };
        let mut copies = vec![memory.clone(); (TOGETHER / memory.blocks.len()).clamp(1, 32)];
        let mut least = [f64::INFINITY; 3];
        let start = Instant::now();
        let mut rounds = 0;
        while rounds < ROUNDS || start.elapsed() < SPAN {
            let times = [
                batch(&mut copies, memory, &mut buffer, by_library),
                batch(&mut copies, memory, &mut buffer, by_model),
                batch(&mut copies, memory, &mut buffer, |_, _| 0),
            ];
            least = std::array::from_fn(|i| least[i].min(times[i]));
            rounds += 1;
        }
        let [library, model, nothing] = least;
        Times {
            library: library - nothing,
            model: model - nothing,
        }
    }
}

impl fmt::Display for Times {
    fn fmt(&self, f: &mut fmt::Formatter) -> fmt::Result {
        let Times { library, model } = self;
        write!(f, "{library:.0} | {model:.0} | {:.2}", library / model)
    }
}

/// The time that one call takes, of a batch over all copies.
fn batch(
    copies: &mut [Memory],
    memory: &Memory,
    buffer: &mut [u8],
    call: impl Fn(&mut Memory, &mut [u8]) -> u32,
) -> f64 {
    for copy in copies.iter_mut() {
        copy.blocks.copy_from_slice(&memory.blocks);
        copy.block_records.copy_from_slice(&memory.block_records);
        copy.file_records.copy_from_slice(&memory.file_records);
        copy.channel_records
            .copy_from_slice(&memory.channel_records);
    }
    let start = Instant::now();
    let mut refused = 0;
    for copy in copies.iter_mut() {
        refused |= black_box(call(black_box(copy), black_box(buffer)));
    }
    let time = start.elapsed();
    assert_eq!(refused, 0, "a timed call is accepted");
    time.as_nanos() as f64 / copies.len() as f64
}

/// The least time of one action, made many times together.
pub fn nanoseconds(mut action: impl FnMut()) -> f64 {
    const TIMES: usize = 64;
    let mut least = f64::INFINITY;
    let begun = Instant::now();
    while begun.elapsed() < SPAN / 4 {
        let start = Instant::now();
        (0..TIMES).for_each(|_| action());
        least = least.min(start.elapsed().as_nanos() as f64 / TIMES as f64);
    }
    least
}
