//! What playing a plan takes: by names, and in lent numbers.

use register::{forecast, forecast_into, Forecast, Form};

use crate::lent::{hex, lent_numbers};
use crate::{joined, refused};

/// The forecast of a plan, then what comes of so many lent numbers.
pub fn foretold(form: Form, plan: &[u8], length: usize) -> String {
    let said = forecast(form, plan).map_or_else(refused, by_name);
    let mut numbers = lent_numbers(length);
    let result = forecast_into(form, plan, &mut numbers);
    let count = result.map_or_else(refused, |count| format!("numbers {count}"));
    let bytes: Vec<u8> = numbers.into_iter().flat_map(u32::to_be_bytes).collect();
    format!("{said} {count} {}", hex(&bytes))
}

fn by_name(forecast: Forecast) -> String {
    let Forecast { answer_bytes, moves, write_messages, read_messages, votes, most_forgeries } =
        forecast;
    let numbers = [answer_bytes, moves, write_messages, read_messages, votes, most_forgeries];
    format!("takes {}", joined(&numbers.map(|number| number as usize)))
}
