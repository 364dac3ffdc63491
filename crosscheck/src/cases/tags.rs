//! Tags of lists of any length, with words above 65520 too.

use super::Round;
use crate::calls::Tag;

pub fn all(round: &mut Round) {
    for _ in 0..30 {
        let any = round.random.within(0, 70);
        let count = round.random.pick(&[0, 1, 2, 63, 64, 65, any]);
        one(round, count);
    }
    one(round, 4867);
}

fn one(round: &mut Round, count: usize) {
    let raw = round.random.coin();
    let words = match raw {
        true => round.random.words(count),
        false => round.random.fields(count),
    };
    let (alpha, beta) = (round.random.field(), round.random.field());
    let (high_alpha, high_beta) = (round.random.above(), round.random.above());
    let call = Tag {
        alpha: round.random.pick(&[alpha, alpha, high_alpha]),
        beta: round.random.pick(&[beta, beta, high_beta]),
        words,
    };
    round.ledger.compare("tag", &call);
    let above = call.words.iter().any(|w| *w > 65520) || call.alpha > 65520 || call.beta > 65520;
    let class = match (count, above) {
        (0, _) => "tag: of no words",
        (_, true) => "tag: with words above 65520",
        (_, false) => "tag: of field words",
    };
    round.ledger.note(class);
}
