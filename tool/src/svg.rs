//! What the pictures share: their look, their axes, and how numbers are written in them.

const STYLE: &str = "\
text { font-family: sans-serif; font-size: 12px; fill: #222222; }
.heading { font-size: 16px; font-weight: bold; }
.middle { text-anchor: middle; }
.end { text-anchor: end; }
.faint { fill: #777777; }
.paper { fill: #ffffff; }
.grid { fill: none; stroke: #e2e2e2; }
.frame { fill: none; stroke: #777777; }
";

/// A picture's size and what it says of itself: in one line, and whole. `style` has what the shared look has not.
pub struct Picture<'a> {
    pub width: f64,
    pub height: f64,
    pub heading: &'a str,
    pub description: &'a str,
    pub style: &'a str,
}

impl Picture<'_> {
    /// The picture, with what is drawn on its paper.
    pub fn with(&self, drawn: &[String]) -> String {
        let [width, height] = [self.width, self.height].map(f64::ceil);
        let Self {
            heading,
            description,
            style,
            ..
        } = self;
        let drawn = drawn.concat();
        format!(
            r#"<?xml version="1.0" encoding="UTF-8"?>
<svg xmlns="http://www.w3.org/2000/svg" version="1.1" width="{width}" height="{height}" viewBox="0 0 {width} {height}" role="img" aria-labelledby="title description">
<title id="title">{heading}</title>
<desc id="description">{description}</desc>
<style type="text/css">
{STYLE}{style}</style>
<rect class="paper" width="{width}" height="{height}"/>
{drawn}</svg>
"#
        )
    }
}

/// A side of a plot. A tick is a number, and how far along it stands.
pub struct Side {
    pub length: f64,
    pub ticks: Vec<(usize, f64)>,
    pub title: String,
}

/// A plot's sides, across and down, with its upper left corner and where their labels stand.
pub struct Axes {
    pub corner: [f64; 2],
    pub across: Side,
    pub down: Side,
    /// The baselines of the numbers and of the title across.
    pub baselines: [f64; 2],
    /// The numbers down end so far left of the plot.
    pub beside: f64,
}

impl Axes {
    /// Moves what is drawn to the plot.
    pub fn transform(&self) -> String {
        let [left, top] = self.corner;
        format!("translate({left} {top})")
    }

    /// Grid, frame, ticks and titles.
    pub fn draw(&self) -> String {
        let Self { across, down, .. } = self;
        let [right, bottom] = [across, down].map(|side| place(side.length));
        let [numbers, title] = self.baselines.map(place);
        let beside = place(-self.beside);
        let mut lines = String::new();
        let mut labels = String::new();
        for &(number, far) in &across.ticks {
            let x = place(far);
            lines += &format!("M{x} 0V{bottom}");
            labels +=
                &format!("<text class=\"middle\" x=\"{x}\" y=\"{numbers}\">{number}</text>\n");
        }
        for &(number, far) in &down.ticks {
            let [y, baseline] = [far, far + 4.0].map(place);
            lines += &format!("M0 {y}H{right}");
            labels +=
                &format!("<text class=\"end\" x=\"{beside}\" y=\"{baseline}\">{number}</text>\n");
        }
        let [centre, middle] = [across, down].map(|side| place(side.length / 2.0));
        format!(
            r#"<g id="axes" transform="{}">
<path class="grid" d="{lines}"/>
<rect class="frame" width="{right}" height="{bottom}"/>
{labels}<text class="middle" x="{centre}" y="{title}">{}</text>
<text class="middle" transform="translate(-56 {middle}) rotate(-90)">{}</text>
</g>
"#,
            self.transform(),
            across.title,
            down.title
        )
    }

    /// Said in the middle, so that an empty plot is not taken for a broken one, and above a line of the grid there.
    pub fn nothing(&self, words: &str) -> String {
        let [left, top] = self.corner;
        let [centre, middle] = [&self.across, &self.down].map(|side| side.length / 2.0);
        let [x, y] = [left + centre, top + middle - 8.0].map(place);
        format!("<text class=\"middle faint\" x=\"{x}\" y=\"{y}\">{words}</text>\n")
    }
}

/// So many of something: `1 word`, `7 words`.
pub fn counted(count: usize, what: &str) -> String {
    let ending = if count == 1 { "" } else { "s" };
    format!("{count} {what}{ending}")
}

/// A place in the picture.
pub fn place(value: f64) -> String {
    decimals(value, 2)
}

/// A factor of positions, so with more decimals.
pub fn factor(value: f64) -> String {
    decimals(value, 4)
}

fn decimals(value: f64, places: usize) -> String {
    let text = format!("{value:.places$}");
    text.trim_end_matches('0').trim_end_matches('.').into()
}
