//! One pair's tiles as an SVG picture: the first sequence runs to the right, the second down, and each tile is
//! a slanting line.

use crate::axis::Axis;
use crate::chain;
use crate::fish::Fish;
use crate::svg::{counted, factor, Axes, Picture};
use sigxume::{Symbol, Tile, Tiling};
use std::ops::Range;

/// Where the plot's upper left corner is, what is free right of it and below it, and the least width of the
/// picture, which the legend needs.
const LEFT: f64 = 80.0;
const TOP: f64 = 140.0;
const FREE: f64 = 28.0;
const LEAST: f64 = 560.0;

/// A band lies so far outside the plot and is so wide; the numbers stand further outside.
const OUTSIDE: f64 = 12.0;
const BAND: f64 = 8.0;
const NUMBERS: f64 = 18.0;

/// A mark of no-calls stands out of its band so far on either side, and is so high.
const OUT: f64 = 2.0;
const MARK: f64 = BAND + 2.0 * OUT;

// A moved tile is told apart by colour, by its lightness in grey print, and by its width; a no-call is black, and higher
// than what is covered.
const STYLE: &str = "\
.band { fill: #eeeeee; }
.kept { fill: #004488; stroke: #004488; stroke-linecap: round; }
.moved { fill: #e07b00; stroke: #e07b00; stroke-linecap: round; }
.cover { stroke: none; }
.no-call { fill: #000000; stroke: none; }
";

/// The widths of the tiles' lines, in order and moved.
const WIDTHS: [f64; 2] = [3.0, 5.0];

pub fn plot(fish: [&Fish; 2], minimum: u32, tiling: Tiling) -> String {
    let kept = chain::heaviest(&Vec::from_iter(tiling.tiles()));
    let in_order = kept.iter().filter(|kept| **kept).count();
    let class = |kept: &bool| if *kept { "kept" } else { "moved" };
    let tiles = Vec::from_iter(tiling.tiles().zip(kept.iter().map(class)));
    let sequences = Axis::pair(fish);
    let [across, down] = &sequences;
    let axes = Axes {
        corner: [LEFT, TOP],
        across: across.side(),
        down: down.side(),
        baselines: [-NUMBERS, -38.0],
        beside: NUMBERS,
    };

    let heading = format!("Fish {} and fish {}", across.id, down.id);
    let facts = format!(
        "{} and {}, minimum {minimum}, covered {}, score {}",
        across.words,
        counted(down.words, "word"),
        tiling.covered(),
        tiling.score()
    );
    let keys = [
        format!("{} in order", counted(in_order, "tile")),
        format!("{} moved", counted(tiles.len() - in_order, "tile")),
        format!(
            "{} and {}",
            fish[0].no_calls,
            counted(fish[1].no_calls, "no-call")
        ),
    ];
    let picture = Picture {
        width: (LEFT + across.length + FREE).max(LEAST),
        height: TOP + down.length + FREE,
        heading: &heading,
        description: &format!(
            "{facts}; {}. The first sequence runs from left to right and the second from top to bottom. Each tile \
             is a slanting line from where it starts to where it ends in both. The bands along the edges show what the \
             tiles cover, and the no-calls.",
            keys.join(", ")
        ),
        style: &(String::from(STYLE) + &widths(&sequences)),
    };
    let nothing = if tiles.is_empty() {
        axes.nothing("no tiles")
    } else {
        String::new()
    };
    picture.with(&[
        legend(&heading, &facts, &keys),
        axes.draw(),
        bands(fish, &sequences, &tiles),
        nothing,
        lines(&axes, &sequences, &tiles),
    ])
}

/// The tiles are scaled but their lines' width is not to be. Where the viewer cannot leave it as it is, a width is
/// given that comes out right, or nearly so where the axes have two scales. A no-call is outlined where its outline is
/// not scaled: of two thousand words one alone would be too narrow to be seen.
fn widths([across, down]: &[Axis; 2]) -> String {
    let scale = (across.scale() * down.scale()).sqrt();
    let [kept, moved] = WIDTHS;
    let [kept_scaled, moved_scaled] = WIDTHS.map(|width| factor(width / scale));
    format!(
        ".kept {{ stroke-width: {kept}; }}
.moved {{ stroke-width: {moved}; }}
.tile.kept {{ stroke-width: {kept_scaled}; }}
.tile.moved {{ stroke-width: {moved_scaled}; }}
@supports (vector-effect: non-scaling-stroke) {{
.tile {{ vector-effect: non-scaling-stroke; }}
.tile.kept {{ stroke-width: {kept}; }}
.tile.moved {{ stroke-width: {moved}; }}
.no-call {{ stroke: #000000; stroke-width: 1; vector-effect: non-scaling-stroke; }}
}}
"
    )
}

fn legend(heading: &str, facts: &str, [kept, moved, no_calls]: &[String; 3]) -> String {
    format!(
        r#"<g id="legend">
<text class="heading" x="16" y="28">{heading}</text>
<text x="16" y="50">{facts}</text>
<path class="kept" d="M18 68H42"/>
<text x="52" y="72">{kept}</text>
<path class="moved" d="M202 68H226"/>
<text x="236" y="72">{moved}</text>
<rect class="no-call" x="362" y="62" width="24" height="{MARK}"/>
<text x="396" y="72">{no_calls}</text>
</g>
"#
    )
}

/// The stretches that tiles cover and the no-calls, along both axes.
fn bands(fish: [&Fish; 2], [across, down]: &[Axis; 2], tiles: &[(Tile, &str)]) -> String {
    let above = format!("translate({LEFT} {})", TOP - OUTSIDE);
    // With the coordinates changed over, what runs to the right runs down.
    let beside = format!("translate({} {TOP}) matrix(0 1 1 0 0 0)", LEFT - OUTSIDE);
    let [first, second] = [|tile: Tile| tile.first, |tile: Tile| tile.second];
    let [above_no_calls, beside_no_calls] = fish.map(no_calls);
    band(
        "first-band",
        &above,
        across,
        stretches(tiles, first),
        above_no_calls,
    ) + &band(
        "second-band",
        &beside,
        down,
        stretches(tiles, second),
        beside_no_calls,
    )
}

fn band(
    name: &str,
    turn: &str,
    axis: &Axis,
    stretches: Vec<(Range<usize>, &str)>,
    no_calls: Vec<Range<usize>>,
) -> String {
    let scale = factor(axis.scale());
    let words = axis.words;
    let mut text = format!(
        "<g id=\"{name}\" transform=\"{turn} scale({scale} 1)\">\n\
         <rect class=\"band\" width=\"{words}\" height=\"{BAND}\"/>\n"
    );
    for (Range { start, end }, class) in stretches {
        let width = end - start;
        text += &format!(
            "<rect class=\"cover {class}\" x=\"{start}\" width=\"{width}\" height=\"{BAND}\"/>\n"
        );
    }
    let up = -OUT;
    for Range { start, end } in no_calls {
        let width = end - start;
        let title = counted(width, "no-call");
        text += &format!(
            "<rect class=\"no-call\" x=\"{start}\" y=\"{up}\" width=\"{width}\" height=\"{MARK}\">\
             <title>{title} from position {start}</title></rect>\n"
        );
    }
    text + "</g>\n"
}

/// The no-calls of a fish, neighbours as one range.
fn no_calls(fish: &Fish) -> Vec<Range<usize>> {
    let no_call = Symbol::NoCall.word();
    let mut next = 0;
    let alike = fish
        .sequence
        .chunk_by(|a, b| (*a == no_call) == (*b == no_call));
    let ranges = alike.filter_map(|words| {
        let start = next;
        next += words.len();
        (words[0] == no_call).then_some(start..next)
    });
    ranges.collect()
}

/// What tiles cover of a sequence, in order. Neighbours of one class are joined, as no gap may show.
fn stretches<'a>(
    tiles: &[(Tile, &'a str)],
    start: fn(Tile) -> usize,
) -> Vec<(Range<usize>, &'a str)> {
    let mut stretches = Vec::from_iter(tiles.iter().map(|(tile, class)| {
        let start = start(*tile);
        (start..start + tile.length, *class)
    }));
    stretches.sort_by_key(|(range, _)| range.start);
    stretches.dedup_by(|(range, class), (last, last_class)| {
        let joined = last.end == range.start && last_class == class;
        if joined {
            last.end = range.end;
        }
        joined
    });
    stretches
}

fn lines(axes: &Axes, [across, down]: &[Axis; 2], tiles: &[(Tile, &str)]) -> String {
    let [x, y] = [across, down].map(|axis| factor(axis.scale()));
    let plot = axes.transform();
    let mut text = format!("<g id=\"tiles\" transform=\"{plot} scale({x} {y})\">\n");
    for (tile, class) in tiles {
        let [x1, y1] = [tile.first, tile.second];
        let [x2, y2] = [x1, y1].map(|start| start + tile.length);
        let words = counted(tile.length, "word");
        let places = format!(
            "position {x1} of fish {} and {y1} of fish {}",
            across.id, down.id
        );
        let shift = tile.shift();
        text += &format!(
            "<line class=\"tile {class}\" x1=\"{x1}\" y1=\"{y1}\" x2=\"{x2}\" y2=\"{y2}\">\
             <title>{words} from {places}, shift {shift}</title></line>\n"
        );
    }
    text + "</g>\n"
}
