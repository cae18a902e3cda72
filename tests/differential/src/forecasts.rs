//! Forecasts: by both libraries, and by playing; with room for all numbers, for fewer and for more.

use plain::Forecast;
use plans::Random;
use register::FORECAST_NUMBERS;

use crate::asked::{for_library, Asked};
use crate::lent;
use crate::results::foretold;
use crate::tally::Tally;
use crate::trial::{holds, same};

/// How many numbers behind the lent ones a slip is looked for in.
const BEHIND: usize = 16;

/// What differs, if anything does.
pub fn compare(random: &mut Random, asked: Asked, tally: &mut Tally) -> Result<(), String> {
    let Asked { form, plan } = asked;
    let wanted = plain::forecast(form.number(), plan).map(Forecast::numbers);
    tally.count("forecast", form, &foretold(wanted));
    let counted = plain::forecast_by_playing(form.number(), plan).map(Forecast::numbers);
    holds(counted == wanted, &format!("playing counts {counted:?}, forecast {wanted:?}"))?;
    let got = register::forecast(for_library(form), plan).map(in_order);
    same("forecast", foretold(got), foretold(wanted))?;
    let accepted = register::Plan::of(for_library(form), plan);
    let got = accepted.map(|plan| in_order(plan.forecast()));
    same("forecast of an accepted plan", foretold(got), foretold(wanted))?;
    let length = lent::length(random, FORECAST_NUMBERS);
    into(random, asked, length, wanted)
}

/// The numbers, by their names.
fn in_order(forecast: register::Forecast) -> [u32; FORECAST_NUMBERS] {
    [
        forecast.answer_bytes,
        forecast.moves,
        forecast.write_messages,
        forecast.read_messages,
        forecast.votes,
        forecast.most_forgeries,
    ]
}

/// Into so many lent numbers: as many as fit stand at their start, and all else is as before.
fn into(
    random: &mut Random,
    Asked { form, plan }: Asked,
    length: usize,
    wanted: plain::Outcome<[u32; FORECAST_NUMBERS]>,
) -> Result<(), String> {
    let before: Vec<u32> = (0..length + BEHIND).map(|_| random.number() as u32).collect();
    let mut numbers = before.clone();
    let got = register::forecast_into(for_library(form), plan, &mut numbers[..length]);
    let about = format!("forecast into {length} numbers");
    same(&about, foretold(got), foretold(wanted.map(|wanted| wanted.len())))?;
    let mut after = before;
    if let Ok(wanted) = wanted {
        let fit = length.min(FORECAST_NUMBERS);
        after[..fit].copy_from_slice(&wanted[..fit]);
    }
    holds(numbers == after, &format!("{about}: lent numbers differ"))
}
