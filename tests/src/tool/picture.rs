//! A picture of two fish, as a stock XML parser reads it.

use super::chain::{is_chain, most_words};
use super::results::Compared;
use super::svg;
use crate::group::Group;
use crate::reference::Tile;
use crate::samples::NO_CALL;
use std::fmt::Arguments;

/// Prints the tiles of each picture, the bands along its edges with what is marked on them, and how the marks look: each
/// look is a fill, a place across the band and a height.
pub const SCRIPT: &str = r#"
def fill(root, name):
    rule = re.search(r'\.' + re.escape(name) + r' \{[^}]*fill: (#[0-9a-f]{6});', root.findtext(ns + 'style'))
    return rule.group(1) if rule else 'none'
for root, every in pictures():
    groups = [e for e in every if e.get('id') == 'tiles']
    print('groups', *(e.tag == ns + 'g' and 'scale(' in e.get('transform', '') for e in groups))
    def ends(group): return [(l.get('x' + n), l.get('y' + n)) for l in group.iter(ns + 'line') for n in '12']
    print('inside', *(inside(root, group, ends(group)) for group in groups))
    def tile(e): return e.tag == ns + 'line' and 'tile' in e.get('class', '').split()
    print('tiles', sum(map(tile, every)))
    for group in groups:
        for e in group.iter(ns + 'line'):
            assert tile(e) and (e.findtext(ns + 'title') or '').strip()
            print('tile', e.get('class'), e.get('x1'), e.get('y1'), e.get('x2'), e.get('y2'))
    looks = {}
    for side in ('first', 'second'):
        band = next(e for e in every if e.get('id') == side + '-band')
        assert all(e.tag == ns + 'rect' for e in band) and 'scale(' in band.get('transform')
        for e in band:
            kind = e.get('class').split()[-1]
            looks.setdefault(kind, set()).add((fill(root, kind), e.get('y', '0'), e.get('height')))
            print(side, kind, e.get('x', '0'), e.get('width'))
    key = [e for e in every if e.tag == ns + 'rect' and e.get('class') == 'no-call' and e.get('x') == '362']
    looks.setdefault('no-call', set())
    keys = {(fill(root, 'no-call'), e.get('height')) for e in key}
    print('key', len(key), all((colour, height) in keys for colour, _, height in looks['no-call']))
    print('apart', all(len(look) <= 1 for look in looks.values()),
          all(not looks[kind] & looks[other] and {l[0] for l in looks[kind]} != {l[0] for l in looks[other]}
              for kind in looks for other in looks if kind != other and looks[kind] and looks[other]))
    print('described-no-calls', *re.findall(r'(\d+) and (\d+) no-calls?\b', root.findtext(ns + 'desc'))[0])
"#;

/// The tile of what the script prints of one, and whether it is kept.
fn tile(line: &str) -> Option<(Tile, bool)> {
    let (kept, numbers) = line.strip_prefix("tile ")?.split_once(' ')?;
    let kept = match kept {
        "kept" => true,
        "moved" => false,
        _ => return None,
    };
    let numbers = numbers.split(' ');
    let numbers: Vec<usize> = numbers.map_while(|number| number.parse().ok()).collect();
    let [x1, y1, x2, y2] = numbers.try_into().ok()?;
    let (length, height) = (x2.checked_sub(x1)?, y2.checked_sub(y1)?);
    (length == height).then_some((Tile::from([x1, y1, length]), kept))
}

/// Whether a text says a number after a word, whatever stands between that is no digit. Numbers may have
/// commas between their thousands.
fn says(texts: &str, word: &str, number: usize) -> bool {
    let texts = texts.to_lowercase();
    let plain: String = texts.replace(", ", "; ").replace(',', "");
    plain.match_indices(word).any(|(at, _)| {
        let rest = plain[at + word.len()..].trim_start_matches(|c: char| !c.is_ascii_digit());
        let end = rest
            .find(|c: char| !c.is_ascii_digit())
            .unwrap_or(rest.len());
        rest[..end] == number.to_string()
    })
}

/// The tiles of what the script printed of one picture, and whether each is kept.
pub fn tiles(printed: &str) -> Option<Vec<(Tile, bool)>> {
    svg::after(printed, "tile").into_iter().map(tile).collect()
}

/// What must be marked on the band of a sequence: itself, the words of tiles and the no-calls, by kinds. Of each kind
/// neighbours are one.
fn band(words: &[u32], tiles: &[(usize, usize, bool)]) -> Vec<String> {
    let mut kinds = vec![""; words.len()];
    for &(start, length, kept) in tiles {
        kinds[start..start + length].fill(if kept { "kept" } else { "moved" });
    }
    for (kind, word) in kinds.iter_mut().zip(words) {
        if *word == NO_CALL {
            *kind = "no-call";
        }
    }
    let mut marks = vec![format!("band 0 {}", words.len())];
    let mut start = 0;
    for alike in kinds.chunk_by(|a, b| a == b) {
        if !alike[0].is_empty() {
            marks.push(format!("{} {start} {}", alike[0], alike.len()));
        }
        start += alike.len();
    }
    marks.sort();
    marks
}

/// The bands, and what is said of no-calls.
fn check_bands(
    g: &mut Group,
    case: Arguments,
    printed: &str,
    compared: &Compared,
    tiles: &[(Tile, bool)],
) {
    let first = tiles
        .iter()
        .map(|(tile, kept)| (tile.first, tile.length, *kept));
    let second = tiles
        .iter()
        .map(|(tile, kept)| (tile.second, tile.length, *kept));
    for (side, words, tiles) in [
        ("first", &compared.first.words, Vec::from_iter(first)),
        ("second", &compared.second.words, Vec::from_iter(second)),
    ] {
        let mut found = svg::after(printed, side);
        found.sort();
        let case = format_args!("{case}: the {side} band");
        g.equal(
            case,
            found,
            band(words, &tiles).iter().map(|mark| &mark[..]).collect(),
        );
    }
    let [a, b] = compared.no_calls();
    let ending = if b == 1 { "" } else { "s" };
    let key = format!("{a} and {b} no-call{ending}");
    let keys = svg::after(printed, "text")
        .into_iter()
        .filter(|text| text.contains("no-call"));
    g.equal(
        format_args!("{case}: key"),
        Vec::from_iter(keys),
        vec![&key[..]],
    );
    let described = format!("described-no-calls {a} {b}");
    svg::has(
        g,
        case,
        printed,
        &["key 1 True", "apart True True", &described],
    );
}

/// Checks what the script printed of one picture.
pub fn check(g: &mut Group, case: Arguments, printed: &str, compared: &Compared) {
    let count = format!("tiles {}", compared.tiles.len());
    svg::has(g, case, printed, &["groups True", "inside True", &count]);
    let Some(tiles) = tiles(printed) else {
        return g.equal(format_args!("{case}: every line is a tile"), false, true);
    };
    check_bands(g, case, printed, compared, &tiles);
    let laid: Vec<Tile> = tiles.iter().map(|&(tile, _)| tile).collect();
    let at = laid.iter().zip(&compared.tiles).position(|(a, b)| a != b);
    let found = (laid.len(), at);
    g.equal(
        format_args!("{case}: tiles"),
        found,
        (compared.tiles.len(), None),
    );
    let kept = tiles
        .iter()
        .filter(|(_, kept)| *kept)
        .map(|&(tile, _)| tile);
    let kept: Vec<Tile> = kept.collect();
    let words: usize = kept.iter().map(|tile| tile.length).sum();
    let expected = (true, most_words(&compared.tiles));
    g.equal(
        format_args!("{case}: kept"),
        (is_chain(&kept), words),
        expected,
    );
    let texts = svg::after(printed, "text");
    for (id, length) in compared.ids().into_iter().zip(compared.lengths()) {
        let title = format!("fish {id}, {length} words");
        let thousands = title.replace(" 2048 ", " 2,048 ");
        let found = texts.iter().any(|&text| {
            text == title
                || text == thousands
                || length == 1 && text == format!("fish {id}, 1 word")
        });
        g.equal(format_args!("{case}: axis {title}"), found, true);
    }
    let all = texts.join(" | ");
    for (word, number) in [
        ("minimum", compared.minimum as usize),
        ("covered", compared.covered()),
        ("score", compared.score()),
    ] {
        let case = format_args!("{case}: {word} {number} in the legend");
        g.equal(case, says(&all, word, number), true);
    }
    let moved = tiles.len() - kept.len();
    for (words, number) in [("in order", kept.len()), ("moved", moved)] {
        let found = texts.iter().any(|text| {
            let plain = text.replace(',', "");
            let mut numbers = plain.split(|c: char| !c.is_ascii_digit());
            text.contains(words) && numbers.any(|word| word == number.to_string())
        });
        let case = format_args!("{case}: {number} {words} in the legend");
        g.equal(case, found, true);
    }
}
