//! Pairs of fish at every minimum as an SVG picture: for each pair a curve that falls in steps, since a score holds
//! for a whole minimum.

use crate::cover::{Covered, Step};
use crate::svg::{counted, place, Axes, Picture, Side};
use sigxume::MAX_MINIMUM;

/// Where the plot's left edge is, what is free right of it and below it, and its size.
const LEFT: f64 = 80.0;
const FREE: f64 = 28.0;
const BELOW: f64 = 60.0;
const WIDTH: f64 = 640.0;
const HEIGHT: f64 = 360.0;

/// The legend's first baseline, and the height of each of its lines.
const LEGEND: f64 = 54.0;
const LINE: f64 = 20.0;

/// The greatest score, and the scores between ticks.
const MOST: usize = 1_000;
const HUNDRED: usize = 100;

/// The least distance between the ticks of minimums, and the least minimum that the plot ends with.
const APART: f64 = 32.0;
const LEAST: usize = 8;

/// How many colours and how many dashes there are. Both go round side by side: so twenty curves look different, and
/// neighbours differ in both. Dashes, and the lightness of the colours, are for grey print and for the colour-blind.
const COLOURS: usize = 5;
const DASHES: usize = 4;

// A step is as wide as a mouse needs it, and not seen.
const STYLE: &str = "\
.curve { fill: none; stroke-width: 2.5; stroke-linejoin: round; }
.colour-0 { stroke: #004488; }
.colour-1 { stroke: #e07b00; }
.colour-2 { stroke: #117733; }
.colour-3 { stroke: #aa3377; }
.colour-4 { stroke: #56a0d3; }
.dash-1 { stroke-dasharray: 9 4; }
.dash-2 { stroke-dasharray: 3 3; }
.dash-3 { stroke-dasharray: 12 4 3 4; }
.step { fill: none; stroke: #ffffff; stroke-opacity: 0; stroke-width: 14; }
";

pub fn plot(pairs: &[Covered]) -> String {
    let curves = Vec::from_iter(pairs.iter().enumerate().map(Curve::new));
    let last = curves.iter().filter_map(Curve::last).max();
    let scale = Scale::to(last.unwrap_or(0));
    let axes = Axes {
        corner: [LEFT, LEGEND + LINE * curves.len() as f64 + 4.0],
        across: scale.minimums(),
        down: scores(),
        baselines: [HEIGHT + 20.0, HEIGHT + 42.0],
        beside: 10.0,
    };
    let heading = "Score at every minimum";
    let keys = Vec::from_iter(curves.iter().map(Curve::key));
    let picture = Picture {
        width: LEFT + WIDTH + FREE,
        height: axes.corner[1] + HEIGHT + BELOW,
        heading,
        description: &format!(
            "{}. The minimum runs from left to right and the score from bottom to top. The curve of a pair falls \
             in steps, each level for one or several minimums.",
            keys.join("; ")
        ),
        style: STYLE,
    };
    let nothing = match last {
        Some(_) => String::new(),
        None => axes.nothing("nothing is covered at any minimum"),
    };
    let [lines, steps] = [Curve::line, Curve::titles].map(|draw| {
        let drawn = curves.iter().map(|curve| draw(curve, &scale));
        drawn.collect::<String>()
    });
    let plot = axes.transform();
    picture.with(&[
        legend(heading, &curves, &keys),
        axes.draw(),
        nothing,
        format!("<g id=\"curves\" transform=\"{plot}\">\n{lines}</g>\n"),
        format!("<g id=\"steps\" transform=\"{plot}\">\n{steps}</g>\n"),
    ])
}

fn legend(heading: &str, curves: &[Curve], keys: &[String]) -> String {
    let mut text =
        format!("<g id=\"legend\">\n<text class=\"heading\" x=\"16\" y=\"28\">{heading}</text>\n");
    for (row, (Curve { class, .. }, key)) in curves.iter().zip(keys).enumerate() {
        let baseline = LEGEND + LINE * row as f64;
        let [line, baseline] = [baseline - 4.0, baseline].map(place);
        text += &format!(
            "<path class=\"{class}\" d=\"M16 {line}H64\"/>\n<text x=\"76\" y=\"{baseline}\">{key}</text>\n"
        );
    }
    text + "</g>\n"
}

/// Minimums from 1 to the last that is shown. A minimum is as wide as it is far to the next, and its tick stands in
/// its middle, so that no edge of a step is on a tick.
struct Scale {
    last: usize,
}

impl Scale {
    /// The minimums to one a bit past the last at which anything is covered.
    fn to(covered: usize) -> Self {
        let past = covered + 1 + covered / 16;
        let last = past.clamp(LEAST, MAX_MINIMUM as usize);
        Self { last }
    }

    /// Where the first so many minimums end.
    fn end(&self, minimums: f64) -> f64 {
        minimums * WIDTH / self.last as f64
    }

    fn minimums(&self) -> Side {
        let far = |step: &usize| self.end(*step as f64) >= APART;
        let step = [1, 2, 4, 8].into_iter().find(far).unwrap_or(16);
        let round = (1..=self.last).filter(|minimum| *minimum == 1 || minimum % step == 0);
        let ticks = round.map(|minimum| (minimum, self.end(minimum as f64 - 0.5)));
        Side {
            length: WIDTH,
            ticks: ticks.collect(),
            title: "minimum".into(),
        }
    }
}

fn scores() -> Side {
    let round = (0..=MOST).step_by(HUNDRED);
    Side {
        length: HEIGHT,
        ticks: round.map(|score| (score, height(score))).collect(),
        title: "score".into(),
    }
}

/// How far from the top a score is.
fn height(score: usize) -> f64 {
    (MOST - score) as f64 * HEIGHT / MOST as f64
}

/// A pair's curve.
struct Curve<'a> {
    pair: &'a Covered<'a>,
    steps: Vec<Step>,
    class: String,
}

impl<'a> Curve<'a> {
    fn new((number, pair): (usize, &'a Covered)) -> Self {
        let (colour, dash) = (number % COLOURS, number % DASHES);
        Self {
            pair,
            steps: pair.steps(),
            class: format!("curve colour-{colour} dash-{dash}"),
        }
    }

    /// The last minimum at which anything is covered, if there is one.
    fn last(&self) -> Option<usize> {
        let step = self.steps.iter().rfind(|step| step.covered > 0)?;
        Some(step.minimums.end - 1)
    }

    fn name(&self) -> String {
        let [first, second] = self.pair.ids();
        format!("fish {first} and fish {second}")
    }

    fn key(&self) -> String {
        let [first, second] = self.pair.lengths();
        let words = format!("{first} and {}", counted(second, "word"));
        let covered = match self.last() {
            Some(last) => format!("covered up to minimum {last}"),
            None => "nothing covered".into(),
        };
        format!("{}, {words}, {covered}", self.name())
    }

    /// What is shown of the steps: from where to where, and how far from the top.
    fn shown(&self, scale: &Scale) -> Vec<(&Step, [String; 3])> {
        let shown = self
            .steps
            .iter()
            .filter(|step| step.minimums.start <= scale.last);
        let shown = shown.map(|step| {
            let last = scale.last.min(step.minimums.end - 1);
            let [from, to] = [step.minimums.start - 1, last].map(|end| scale.end(end as f64));
            (step, [from, to, height(step.score as usize)].map(place))
        });
        shown.collect()
    }

    /// The line that is seen.
    fn line(&self, scale: &Scale) -> String {
        let mut path = String::new();
        for (_, [from, to, height]) in self.shown(scale) {
            let start = match &*path {
                "" => format!("M{from} {height}"),
                _ => format!("V{height}"),
            };
            path += &format!("{start}H{to}");
        }
        format!("<path class=\"{}\" d=\"{path}\"/>\n", self.class)
    }

    /// What the mouse finds on the line.
    fn titles(&self, scale: &Scale) -> String {
        let title = |(step, [from, to, height]): (&Step, [String; 3])| {
            let Step { covered, score, .. } = step;
            let [first, last] = [step.minimums.start, step.minimums.end - 1];
            let minimums = match first == last {
                true => format!("minimum {first}"),
                false => format!("minimum {first} to {last}"),
            };
            let title = format!(
                "{}, {minimums}: covered {covered}, score {score}",
                self.name()
            );
            format!(
                "<path class=\"step\" d=\"M{from} {height}H{to}\"><title>{title}</title></path>\n"
            )
        };
        self.shown(scale).into_iter().map(title).collect()
    }
}
