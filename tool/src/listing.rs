//! One pair's answer for people, in the manner of the pair program, and for programs, as JSON.

use crate::fish::Fish;
use sigxume::Tiling;

/// The listing: the pair program's with one line more, that of the no-calls.
pub fn listing([first, second]: [&Fish; 2], minimum: u32, tiling: Tiling) -> String {
    let mut text = format!(
        "FISH {} {}\nMINIMUM {minimum}\nTILES {}\n",
        first.id,
        second.id,
        tiling.tiles().len()
    );
    for tile in tiling.tiles() {
        text += &format!(
            "{} {} {} {}\n",
            tile.first,
            tile.second,
            tile.length,
            tile.shift()
        );
    }
    text += &format!(
        "COVERED {} OF {} {}\nNO-CALLS {} {}\nSCORE {}\n",
        tiling.covered(),
        first.sequence.len(),
        second.sequence.len(),
        first.no_calls,
        second.no_calls,
        tiling.score()
    );
    text
}

/// How a JSON text about a pair begins.
pub fn named([first, second]: [&Fish; 2], minimum: u32) -> String {
    format!(
        r#""fish":[{},{}],"minimum":{minimum},"lengths":[{},{}],"no_calls":[{},{}]"#,
        first.id,
        second.id,
        first.sequence.len(),
        second.sequence.len(),
        first.no_calls,
        second.no_calls
    )
}

/// One line of JSON.
pub fn json(pair: [&Fish; 2], minimum: u32, tiling: Tiling) -> String {
    let tiles = Vec::from_iter(tiling.tiles().map(|tile| {
        format!(
            r#"{{"first":{},"second":{},"length":{},"shift":{}}}"#,
            tile.first,
            tile.second,
            tile.length,
            tile.shift()
        )
    }));
    format!(
        r#"{{{},"tiles":[{}],"covered":{},"score":{}}}"#,
        named(pair, minimum),
        tiles.join(","),
        tiling.covered(),
        tiling.score()
    ) + "\n"
}
