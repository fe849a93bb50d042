//! Weights and limits by name, as an inspector gives them: `tick=8,line=6`, `delays=100`.

use super::draw::{Setting, LIMITS};
use super::plan;
use crate::words::EVENTS;

/// Changes the weights that are named.
pub fn weights(setting: &mut Setting, text: &str) -> Result<(), String> {
    for (name, value) in pairs(text)? {
        let at = EVENTS.iter().position(|event| event.word == name);
        let at = at.ok_or_else(|| format!("{name} is no event: {}", EVENTS.map(|event| event.word).join(", ")))?;
        setting.weights[at] = value;
    }
    if setting.weights.iter().all(|weight| *weight == 0) {
        return Err("some weight has to be above 0".into());
    }
    Ok(())
}

/// Changes the limits that are named; whether that of delays is among them.
pub fn limits(setting: &mut Setting, text: &str) -> Result<bool, String> {
    let pairs = pairs(text)?;
    for (name, value) in &pairs {
        let at = LIMITS.iter().position(|(_, limit)| limit == name);
        let at = at.ok_or_else(|| format!("{name} is no limit: {}", LIMITS.map(|(_, name)| name).join(", ")))?;
        if *value == 0 {
            return Err(format!("the limit of {name} has to be above 0"));
        }
        setting.limits[at] = *value;
    }
    Ok(pairs.iter().any(|(name, _)| *name == "delays"))
}

fn pairs(text: &str) -> Result<Vec<(&str, u16)>, String> {
    let pair = |part: &'_ str| -> Option<(usize, u16)> {
        let (name, value) = part.split_once('=')?;
        Some((name.len(), value.parse().ok()?))
    };
    text.split(',')
        .map(|part| {
            let (length, value) = pair(part).ok_or_else(|| format!("`{part}` is not NAME=NUMBER, 0 to 65535"))?;
            Ok((&part[..length], value))
        })
        .collect()
}

/// `activate=16,finish=24`.
pub fn weights_words(setting: &Setting) -> String {
    join(EVENTS.iter().map(|event| event.word).zip(setting.weights))
}

/// `bodies=7,resources=4,tables=3,delays=4`; where that of delays is not fixed, what the traces choose from.
pub fn limits_words(setting: &Setting, delays_fixed: bool) -> String {
    let limits =
        join(LIMITS.iter().map(|(_, name)| *name).zip(setting.limits).take(LIMITS.len() - usize::from(!delays_fixed)));
    if delays_fixed {
        return limits;
    }
    format!("{limits},delays={}, two periods or {}", plan::SMALL_DELAYS, u16::MAX)
}

fn join<'a>(pairs: impl Iterator<Item = (&'a str, u16)>) -> String {
    pairs.map(|(name, value)| format!("{name}={value}")).collect::<Vec<_>>().join(",")
}
