//! The rival and the plain one agree on random plans: results, and every lent byte.

use plain::{Refused, WORKSPACE_BYTES};
use plans::{accepted, damaged, Form, Random, Size};

const PLANS: u64 = 20_000;
const LOOKS: usize = 8;
const FORM: Form = Form::One;

fn plan(random: &mut Random) -> Vec<u8> {
    let size = if random.once_in(16) { Size::Any } else { Size::Small };
    if random.once_in(3) {
        damaged(random, FORM, size)
    } else {
        accepted(random, FORM, size).pack()
    }
}

fn lent(random: &mut Random, length: usize) -> Vec<u8> {
    let first = random.number() as u8;
    (0..length).map(|i| first.wrapping_add(i as u8)).collect()
}

fn workspace(random: &mut Random) -> Vec<u8> {
    let more = random.pick(&[0, 0, 0, 1, 99]);
    let length = if random.once_in(16) { WORKSPACE_BYTES - 1 } else { WORKSPACE_BYTES + more };
    lent(random, length)
}

/// What an operation gives, and the lent bytes after it.
fn after<T, const N: usize>(
    mut lent: [Vec<u8>; N],
    operation: impl Fn(&mut [Vec<u8>; N]) -> Result<T, Refused>,
) -> (Result<T, Refused>, [Vec<u8>; N]) {
    (operation(&mut lent), lent)
}

#[test]
fn on_random_plans() {
    for seed in 0..PLANS {
        let random = &mut Random::new(seed);
        let plan = plan(random);
        let checked = plain::check(FORM.number(), &plan);
        assert_eq!(rival::check(&plan), checked, "Check, seed {seed}");

        let exact = FORM.answer_bytes() * checked.unwrap_or(0);
        let length = random.pick(&[exact, exact, exact.saturating_sub(1), exact + 7]);
        let bytes = [lent(random, length), workspace(random)];
        let played =
            after(bytes.clone(), |[answers, workspace]| rival::play(&plan, answers, workspace));
        let wanted = after(bytes, |[answers, workspace]| {
            plain::play(FORM.number(), &plan, answers, workspace)
        });
        assert!(played == wanted, "Play, seed {seed}");

        for _ in 0..LOOKS {
            let (server, tick) = (random.below(17), random.pick(&[0, 7, 15, 23, 31, 127]));
            let tick = tick - random.below(tick.min(8) + 1);
            let bytes = [workspace(random)];
            let seen = after(bytes.clone(), |[lent]| rival::look(&plan, lent, server, tick));
            let wanted =
                after(bytes, |[lent]| plain::look(FORM.number(), &plan, lent, server, tick));
            assert!(seen == wanted, "Look at server {server} after tick {tick}, seed {seed}");
        }
    }
}
