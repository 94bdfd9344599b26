//! Whether one pair's score reaches a line: for people, and for programs, as JSON.

use crate::fish::Fish;
use crate::listing::named;
use sigxume::Verdict;

/// Two lines in the manner of the listing.
pub fn lines(threshold: u32, verdict: Verdict) -> String {
    let word = if verdict.reached { "YES" } else { "NO" };
    format!("AT LEAST {threshold} {word}\nTILES {}\n", verdict.tiles)
}

/// One line of JSON.
pub fn json(pair: [&Fish; 2], minimum: u32, threshold: u32, verdict: Verdict) -> String {
    format!(
        r#"{{{},"threshold":{threshold},"reached":{},"tiles":{}}}"#,
        named(pair, minimum),
        verdict.reached,
        verdict.tiles
    ) + "\n"
}
