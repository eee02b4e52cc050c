//! What the last lines of a run over texts count, and what a long run must meet.
use std::collections::BTreeMap;

use crate::reader::Reading;
use crate::text_features::{features, names};
use crate::text_kinds::KINDS;

const ROOMS: [&str; 5] = ["none", "one short", "exact", "more", "any"];
/// How texts are answered.
const ANSWERS: [&str; 9] = [
    "read",
    "4 by the text's length",
    "16",
    "1",
    "4 by counts",
    "5",
    "8",
    "9",
    "17",
];

#[derive(Default)]
pub struct TextCounts {
    /// By the places in `KINDS`.
    pub kinds: [usize; KINDS.len()],
    pub rooms: [usize; ROOMS.len()],
    answers: [usize; ANSWERS.len()],
    /// By their names.
    features: BTreeMap<&'static str, usize>,
}

impl TextCounts {
    pub fn note(&mut self, text: &[u8], reading: &Reading, answer: Result<&[u8], u32>) {
        let place = match (reading, answer) {
            (_, Ok(_)) => 0,
            (Reading::TooLong, _) => 1,
            (_, Err(16)) => 2,
            (_, Err(1)) => 3,
            (_, Err(4)) => 4,
            (_, Err(5)) => 5,
            (_, Err(8)) => 6,
            (_, Err(9)) => 7,
            (_, Err(_)) => 8,
        };
        self.answers[place] += 1;
        for name in features(text, reading) {
            *self.features.entry(name).or_default() += 1;
        }
    }

    fn shown(&self, name: &str) -> usize {
        self.features.get(name).copied().unwrap_or(0)
    }

    /// The names of all that was not met.
    pub fn missing(&self) -> Vec<&'static str> {
        let all = KINDS.iter().zip(self.kinds);
        let all = all.chain(ROOMS.iter().zip(self.rooms));
        let all = all.chain(ANSWERS.iter().zip(self.answers));
        let all = all.filter(|(_, count)| *count == 0);
        let features = names().filter(|name| self.shown(name) == 0);
        all.map(|(name, _)| *name).chain(features).collect()
    }

    pub fn summary(&self, texts: u64, seed: u64) -> String {
        let rarest = names().min_by_key(|name| self.shown(name)).unwrap_or("");
        format!(
            "seed {seed}: {texts} texts; answers {{{}}}; kinds {{{}}}; room {{{}}}; {} of {} features met, \
             the rarest {} times ({rarest})",
            listed(&ANSWERS, &self.answers),
            listed(&KINDS, &self.kinds),
            listed(&ROOMS, &self.rooms),
            self.features.len(),
            names().count(),
            self.shown(rarest)
        )
    }
}

fn listed(names: &[&str], counts: &[usize]) -> String {
    let each = names.iter().zip(counts);
    let each = each.map(|(name, count)| format!("{name}: {count}"));
    each.collect::<Vec<_>>().join(", ")
}
