//! The graphs and frames that decode is timed on.

use crate::generate::codewords::Codewords;
use crate::generate::graphs::{Lists, regular, regular_with_codeword};
use crate::interface::{LARGEST_LIFT, LentLengths, NEVER, Settings, Verdict, f32_bytes, f32_list};
use crate::paper::quantiser::largest_magnitude;
use crate::paper::{self, Limits};
use crate::random::Random;

/// Frames of a batch on a large graph.
pub const FRAMES: usize = 6;

/// Frames of a batch on a small graph: more than a processor's branch prediction can learn,
/// as frames in use are always new.
pub const SMALL_FRAMES: usize = 2_000;

/// Frames of a batch on a strip.
pub const STRIP_FRAMES: usize = 3;

const SETTINGS: Settings = Settings {
    kind: 0,
    gain: 2.5,
    variance: 0.0,
    channel: 4,
    message: 4,
    phi_s: 1,
    phi_a: 1,
    phi_0: 0,
    limit: 50,
    lift_from: NEVER,
    lift_to: LARGEST_LIFT,
};

/// How frames end, and the standard deviation of the noise that mostly makes them end so.
const ENDINGS: [(Verdict, f32); 2] = [(Verdict::Codeword, 0.62), (Verdict::Stopped, 1.0)];

/// Frames on one graph. The ending is what most or all of them have with nothing lifted.
pub struct Batch {
    pub lists: Lists,
    pub settings: Settings,
    pub ending: Verdict,
    pub frames: Vec<Vec<u8>>,
}

impl Batch {
    /// The same frames under another limit.
    pub fn limited(self, limit: u32) -> Batch {
        Batch { settings: Settings { limit, ..self.settings }, ..self }
    }

    /// The same frames with saturated messages lifted from an iteration on, by 2.
    pub fn lifted(&self, lift_from: u32) -> Batch {
        let nq = largest_magnitude(self.settings.message);
        let settings = Settings { lift_from, lift_to: u32::from(nq) + 2, ..self.settings };
        Batch {
            lists: self.lists.clone(),
            settings,
            ending: self.ending,
            frames: self.frames.clone(),
        }
    }
}

/// Frames as they come, on a (3,6)-regular graph.
pub fn noisy(random: &mut Random, n: usize) -> Vec<Batch> {
    batches(random, n, FRAMES, |_, _, _| true)
}

/// Frames that have the ending after an iteration or more, on a small (3,6)-regular graph.
pub fn chosen(random: &mut Random, n: usize) -> Vec<Batch> {
    batches(random, n, SMALL_FRAMES, |lists, ending, frame| {
        let (graph, lent) = (lists.graph(), LentLengths::needed(n, lists.columns.len()));
        let degrees = &mut vec![0; n];
        let outcome =
            paper::decode(Limits::LENT, &graph, &f32_list(frame), &SETTINGS, degrees, &lent);
        outcome.is_ok_and(|outcome| outcome.verdict == ending && outcome.iterations > 0)
    })
}

/// Frames as they come on a (3,6)-regular strip, around a codeword that is made with it. Those
/// that do not decode are stopped early.
pub fn strip(random: &mut Random, n: usize) -> [Batch; 2] {
    let (lists, word) = regular_with_codeword(random, n, 3, 6);
    ENDINGS.map(|(ending, noise)| Batch {
        lists: lists.clone(),
        settings: match ending {
            Verdict::Codeword => SETTINGS,
            Verdict::Stopped => Settings { limit: 10, ..SETTINGS },
        },
        ending,
        frames: (0..STRIP_FRAMES).map(|_| noisy_frame(random, &word, noise)).collect(),
    })
}

/// The paper's whole example.
pub fn example() -> Batch {
    Batch {
        lists: Lists::from_rows(3, &[vec![0, 1], vec![1, 2]]),
        settings: Settings { gain: 1.0, channel: 3, message: 3, limit: 5, ..SETTINGS },
        ending: Verdict::Codeword,
        frames: vec![f32_bytes(&[2.5, -0.5, 1.5])],
    }
}

/// A batch for each ending, of so many frames that are wanted for it.
fn batches(
    random: &mut Random,
    n: usize,
    count: usize,
    wanted: impl Fn(&Lists, Verdict, &[u8]) -> bool,
) -> Vec<Batch> {
    let lists = regular(random, n, 3, 6);
    let codewords = Codewords::new(&lists);
    let mut batch = |(ending, noise)| {
        let drawn = std::iter::repeat_with(|| {
            let word = codewords.random(random);
            noisy_frame(random, &word, noise)
        });
        let frames = drawn.filter(|frame| wanted(&lists, ending, frame)).take(count).collect();
        Batch { lists: lists.clone(), settings: SETTINGS, ending, frames }
    };
    ENDINGS.into_iter().map(&mut batch).collect()
}

/// A codeword sent as +1 for 0 and -1 for 1, with noise.
fn noisy_frame(random: &mut Random, word: &[u8], noise: f32) -> Vec<u8> {
    let sent = word.iter().map(|&bit| 1.0 - 2.0 * f32::from(bit));
    let values: Vec<f32> = sent.map(|value| value + noise * random.normal()).collect();
    f32_bytes(&values)
}
