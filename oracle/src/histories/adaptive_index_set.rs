//! What both kinds of histories of the adaptive set share: lengths to lend, and indices near the
//! lines of the rules.

use super::member;
use crate::format::SETS;
use crate::random::Random;
use crate::rules::adaptive_index_set::AdaptiveIndexSetRules;
use crate::rules::count;
use crate::rules::modes::{hold, limit};
use crate::session::Session;
use crate::source::AdaptiveIndexSets;

pub type AdaptiveSession = Session<AdaptiveIndexSetRules, AdaptiveIndexSets>;
pub type Weights = [(u64, u64)];

pub const LAST_INDEX: u64 = 0xffff_ffff;

/// Words and keys for each set, most often the same for all three. The longest words are lent to one
/// set at a time, for a dump of them is long.
pub fn lengths(random: &mut Random, words: &Weights, keys: &Weights) -> [(u64, u64); SETS] {
    let shared = (random.weighted(&words[..words.len() - 1]), random.weighted(keys));
    [(); SETS].map(|()| {
        let own = (random.weighted(words), random.weighted(keys));
        if random.one_in(4) { own } else { shared }
    })
}

/// An index that needs `words` words or one more, at an end of its word.
fn edge(random: &mut Random, words: u64) -> u64 {
    let word = words.saturating_sub(random.below(2));
    (64 * word + random.pick(&[0, 1, 63])).min(LAST_INDEX)
}

/// An index near a line of the rules. `far` is the weight of those that turn most sets sparse.
pub fn index(random: &mut Random, session: &AdaptiveSession, set: usize, far: u64) -> u64 {
    let state = &session.rules.sets[set];
    let n = count(&state.members);
    let words = random.pick(&[1, 2, 16, 31, 32, 33, 40]);
    let present = member(random, &state.members);
    let far_away = [
        random.pick(&[5000, 6000]),
        LAST_INDEX - random.below(2),
        edge(random, hold(n)),
        random.below(LAST_INDEX + 1),
    ];
    let candidates = [
        (12, random.below(24)),
        (4, random.pick(&[2047, 2048])),
        (4, edge(random, words)),
        (6, edge(random, limit(n + 1))),
        (4, edge(random, state.span)),
        (2, edge(random, session.rules.words[set])),
        (10, present),
        (4, (present + 1).min(LAST_INDEX)),
        (far, random.pick(&far_away)),
    ];
    random.weighted(&candidates)
}
