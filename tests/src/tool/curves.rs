//! `cover --plot`: pictures of curves, read by a stock XML parser. What a curve says is found by the ticks alone.

use super::compare::{any_fish_pair, known_pairs, larger};
use super::cover::{any_pairs, numbered_fish};
use super::fish::{records, text};
use super::results::Covers;
use super::svg;
use super::Tool;
use crate::group::Group;
use crate::reference::MAX_MINIMUM;
use std::collections::HashSet;
use std::fmt::Arguments;

/// Prints of each picture its ticks, its legend, and its curves and their steps with the places through which they
/// go. A tick's place is that of its line in the grid.
const SCRIPT: &str = r#"
def style(root, e):
    found = ['none', 'none']
    for name in e.get('class').split():
        rule = re.search(r'\.' + re.escape(name) + r' \{([^}]*)\}', root.findtext(ns + 'style'))
        for at, key in enumerate(('stroke', 'stroke-dasharray')):
            value = re.search(r'(?:^|[ ;])' + key + r': ([^;]*);', rule.group(1) if rule else '')
            found[at] = value.group(1).replace(' ', '-') if value else found[at]
    return found
def places(e):
    path = e.get('d')
    assert re.fullmatch(r'M[\d.]+ [\d.]+(H[\d.]+|V[\d.]+)*', path), path
    x, y = path[1:].split('H')[0].split('V')[0].split(' ')
    through = [(x, y)]
    for letter, number in re.findall(r'([HV])([\d.]+)', path):
        x, y = (number, y) if letter == 'H' else (x, number)
        through.append((x, y))
    return through
for root, every in pictures():
    groups = {e.get('id'): e for e in every if e.tag == ns + 'g'}
    axes = groups['axes']
    grid = next(e for e in axes if e.get('class') == 'grid').get('d')
    frame = next(e for e in axes if e.get('class') == 'frame')
    print('frame', frame.get('width'), frame.get('height'))
    labels = [(e.get('class'), e.text) for e in axes.iter(ns + 'text') if re.fullmatch(r'\d+', e.text)]
    lines = re.findall(r'M([\d.]+) 0V|M0 ([\d.]+)H', grid)
    assert len(labels) == len(lines)
    for (kind, number), (x, y) in zip(labels, lines):
        assert kind == ('middle' if x else 'end')
        print('across' if x else 'down', number, x or y)
    keys = list(groups['legend'])[1:]
    for line, key in zip(keys[::2], keys[1::2]):
        print('key', *style(root, line), key.text)
    for name in ('curves', 'steps'):
        points = [point for e in groups[name] for point in places(e)]
        print(name, len(groups[name]), inside(root, groups[name], points))
    for e in groups['curves']:
        print('curve', *style(root, e), *(number for point in places(e) for number in point))
    for e in groups['steps']:
        print('step', *(number for point in places(e) for number in point), e.findtext(ns + 'title'))
"#;

/// A straight scale: the place of a number, found from its ticks.
struct Scale {
    start: f64,
    unit: f64,
}

impl Scale {
    /// From the first and the last tick, if each of the others stands where these two say.
    fn of(ticks: &[(f64, f64)]) -> Option<Self> {
        let (&(first, start), &(last, end)) = (ticks.first()?, ticks.last()?);
        let unit = (end - start) / (last - first);
        let start = start - first * unit;
        let straight = |(number, place): &(f64, f64)| (start + number * unit - place).abs() < 0.02;
        (unit.is_normal() && ticks.iter().all(straight)).then_some(Self { start, unit })
    }

    /// The number at a place, in so many parts of one, if the place is that of one.
    fn number(&self, place: f64, parts: f64) -> Option<usize> {
        let number = (place - self.start) / self.unit * parts;
        let off = (number - number.round()) / parts * self.unit;
        (off.abs() < 0.02 && number > -0.5).then_some(number.round() as usize)
    }
}

/// A level part of a curve: its minimums, from the first to the last, and its score.
type Level = (usize, usize, usize);

/// The scales of a picture.
struct Scales {
    minimums: Scale,
    scores: Scale,
    /// The last minimum that is shown.
    last: usize,
}

impl Scales {
    fn of(printed: &str) -> Option<Self> {
        let ticks = |word: &str| -> Option<Vec<(f64, f64)>> {
            let ticks = svg::after(printed, word).into_iter().map(numbers);
            ticks
                .map(|tick| Some((*tick.first()?, *tick.get(1)?)))
                .collect()
        };
        let (across, down) = (ticks("across")?, ticks("down")?);
        let (minimums, scores) = (Scale::of(&across)?, Scale::of(&down)?);
        let frame = numbers(svg::after(printed, "frame").first()?);
        let [right, bottom] = frame[..].try_into().ok()?;
        // The frame holds whole minimums from 1 on, and all scores.
        let ends = [0.0, right].map(|place| minimums.number(place, 2.0));
        let [Some(1), Some(end)] = ends else {
            return None;
        };
        let whole = [bottom, 0.0].map(|place| scores.number(place, 1.0)) == [Some(0), Some(1_000)];
        (end % 2 == 1 && whole && across[0].0 == 1.0).then_some(Self {
            minimums,
            scores,
            last: end / 2,
        })
    }

    /// The level parts of places in a row, of which each is reached from the last by going right or down.
    fn levels(&self, places: &[f64]) -> Option<Vec<Level>> {
        let (places, rest) = places.as_chunks::<4>();
        let level = |&[from, high, to, same]: &[f64; 4]| {
            // A minimum is as wide as it is far to the next, so it begins and ends halfway.
            let [from, to] = [from, to].map(|place| self.minimums.number(place, 2.0));
            let (first, last) = (from? / 2 + 1, to? / 2);
            let halves = from? % 2 == 1 && to? % 2 == 1 && high == same;
            let score = self.scores.number(high, 1.0)?;
            halves.then_some((first, last, score))
        };
        let levels = places.iter().map(level).collect();
        rest.is_empty().then_some(levels).flatten()
    }
}

/// The numbers that a text begins with.
fn numbers(text: &str) -> Vec<f64> {
    let words = text.split(' ');
    words.map_while(|word| word.parse().ok()).collect()
}

/// The levels of a pair up to a minimum, each with its title.
fn due(covers: &Covers, last: usize) -> Vec<(Level, String)> {
    let mut levels = Vec::new();
    let mut first = 0;
    while first < last {
        let (covered, score) = (covers.covered[first], covers.scores[first]);
        let same = covers.covered[first..]
            .iter()
            .take_while(|&&it| it == covered);
        let end = first + same.count();
        let [a, b] = covers.ids;
        let minimums = match end - first {
            1 => format!("{end}"),
            _ => format!("{} to {end}", first + 1),
        };
        let title =
            format!("fish {a} and fish {b}, minimum {minimums}: covered {covered}, score {score}");
        levels.push(((first + 1, end.min(last), score), title));
        first = end;
    }
    levels
}

/// Checks what the script printed of a picture.
fn check(g: &mut Group, case: Arguments, printed: &str, pairs: &[&Covers]) {
    let Some(scales) = Scales::of(printed) else {
        return g.equal(format_args!("{case}: two straight scales"), false, true);
    };
    let covered = pairs.iter().map(|pair| pair.last()).max().unwrap_or(0);
    let (least, most) = (covered + 1, (covered + 2 + covered / 8).max(8));
    let fits = scales.last == MAX_MINIMUM as usize && covered + 8 > scales.last
        || (least..=most).contains(&scales.last);
    let case_last = format_args!("{case}: shown to {} for {covered}", scales.last);
    g.equal(case_last, fits, true);

    let levels = Vec::from_iter(pairs.iter().map(|pair| due(pair, scales.last)));
    let steps = levels.iter().map(Vec::len).sum::<usize>();
    let parts = [
        format!("curves {} True", pairs.len()),
        format!("steps {steps} True"),
    ];
    let parts = parts.each_ref().map(|part| &part[..]);
    svg::has(g, case, printed, &parts);

    let curves = svg::after(printed, "curve");
    let keys = svg::after(printed, "key");
    g.equal(format_args!("{case}: keys"), keys.len(), pairs.len());
    for (number, (pair, levels)) in pairs.iter().zip(&levels).enumerate() {
        let case = format_args!("{case}, curve {number}");
        let curve = curves.get(number).copied().unwrap_or_default();
        let (look, places) = curve.split_at(look(curve).len());
        let found = scales.levels(&numbers(places.trim_start()));
        let expected = levels.iter().map(|(level, _)| *level).collect();
        g.equal(case, found, Some(expected));
        let [a, b] = pair.ids;
        let [n, m] = pair.lengths;
        let words = if m == 1 { "word" } else { "words" };
        let shared = match pair.last() {
            0 => "nothing covered".to_string(),
            last => format!("covered up to minimum {last}"),
        };
        let key = format!("{look} fish {a} and fish {b}, {n} and {m} {words}, {shared}");
        g.equal(case, keys.get(number).copied(), Some(&key[..]));
    }
    let found = svg::after(printed, "step").into_iter().map(|step| {
        let level = scales.levels(&numbers(step)).unwrap_or_default();
        (level, step.splitn(5, ' ').last().unwrap_or_default())
    });
    let expected = levels.iter().flatten();
    let expected = expected.map(|(level, title)| (vec![*level], &title[..]));
    g.equal(
        format_args!("{case}: steps"),
        Vec::from_iter(found),
        Vec::from_iter(expected),
    );
    let nothing = "nothing is covered at any minimum";
    let said = svg::after(printed, "text").contains(&nothing);
    g.equal(format_args!("{case}: {nothing}"), said, covered == 0);
    looks(g, case, &curves);
}

/// The colour and the dashes with which a line begins.
fn look(line: &str) -> &str {
    let end = line.match_indices(' ').nth(1).map_or(line.len(), |it| it.0);
    &line[..end]
}

/// A dozen curves look different, and neighbours differ in both colour and dashes.
fn looks(g: &mut Group, case: Arguments, curves: &[&str]) {
    let looks = Vec::from_iter(curves.iter().map(|curve| look(curve)));
    let dozen = &looks[..looks.len().min(12)];
    let different: HashSet<&&str> = dozen.iter().collect();
    g.equal(
        format_args!("{case}: different looks"),
        different.len(),
        dozen.len(),
    );
    let alike = looks.windows(2).any(|two| {
        let [one, other] = [two[0], two[1]].map(|look| look.split_once(' '));
        one.zip(other)
            .is_none_or(|(one, other)| one.0 == other.0 || one.1 == other.1)
    });
    g.equal(format_args!("{case}: neighbours alike"), alike, false);
}

/// The files of pictures, and what each must show.
struct Pictures {
    tool: Tool,
    pairs: Vec<Vec<Covers>>,
}

impl Pictures {
    /// Draws a picture of the pairs of some fish, from two sources that say the same.
    fn draw(&mut self, g: &mut Group, names: &[&str], sources: [Vec<u8>; 2], pairs: Vec<Covers>) {
        let number = self.pairs.len();
        let args = [&["cover", "--plot", "-"], names].concat();
        let ran = self.tool.run(&args, &sources[0]);
        let picture = ran.map(|ran| ran.stdout).unwrap_or_default();
        self.tool.put(&format!("{number}.svg"), &picture);
        let case = format_args!("picture {number}");
        g.equal(case, picture.is_empty(), false);
        let same = Covers::print(&Vec::from_iter(&pairs), picture);
        self.tool.expect(g, case, &args, &sources[1], &same);
        if number < 10 {
            self.tool.expect_written(g, case, &args, &sources[0], &same);
        }
        self.pairs.push(pairs);
    }
}

/// Known, random, empty and large pairs alone; several in one picture, more than there are looks too.
pub fn curves(g: &mut Group) {
    let mut pictures = Pictures {
        tool: Tool::new(g),
        pairs: Vec::new(),
    };
    let mut pairs = known_pairs();
    pairs.extend((0..40).map(|_| any_fish_pair(g)));
    pairs.extend(larger(g));
    for (pair, _) in &pairs {
        let covers = Covers::new(&pair[0], &pair[1]);
        pictures.draw(g, &[], [text(pair), records(pair)], vec![covers]);
    }
    let all = numbered_fish(&mut g.random);
    for count in [2, 3, 6, 12, 21, 50] {
        let (pairs, names) = any_pairs(&mut g.random, &all, count);
        let covers = pairs.iter().map(|&[a, b]| Covers::new(&all[a], &all[b]));
        let names = Vec::from_iter(names.iter().map(|name| &name[..]));
        pictures.draw(g, &names, [records(&all), text(&all)], covers.collect());
    }
    let Pictures { tool, pairs } = pictures;
    let printed = svg::read(g, &tool, pairs.len(), SCRIPT);
    for (number, (printed, pairs)) in printed.iter().zip(&pairs).enumerate() {
        let pairs = Vec::from_iter(pairs);
        check(g, format_args!("picture {number}"), printed, &pairs);
    }
}
