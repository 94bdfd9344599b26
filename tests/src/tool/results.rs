//! What the tool must print of comparisons: listings, JSON texts, tables, and what it says of badly typed fish.

mod matrix;

pub use matrix::{Cell, Matrix, PAIRS};

use super::expected::Expected;
use super::fish::Fish;
use super::typing::{no_calls, said, warning, warnings};
use crate::reference::{
    self, at_least, covered, score, tiling, workspace_words, Curve, Tile, COVER_WORDS,
};
use crate::wise;
use sigxume::raw::Told;
use sigxume::Settings;

/// The most words of a sequence that is compared by the literal tiling.
const LITERAL: usize = 300;

/// Two fish and their tiles in the order laid.
pub struct Compared<'a> {
    pub first: &'a Fish,
    pub second: &'a Fish,
    pub minimum: u32,
    pub tiles: Vec<Tile>,
}

impl<'a> Compared<'a> {
    /// By the literal tiling; by the port of Wise's program where that would take long.
    pub fn new(first: &'a Fish, second: &'a Fish, minimum: u32) -> Self {
        let (a, b, least) = (&first.words, &second.words, minimum as usize);
        let tiles = match a.len().max(b.len()) {
            0..=LITERAL => tiling(a, b, least),
            _ => wise::tiling(a, b, least, least.max(20)).0,
        };
        Self {
            first,
            second,
            minimum,
            tiles,
        }
    }

    pub fn ids(&self) -> [u32; 2] {
        [self.first, self.second].map(|fish| fish.id.into())
    }

    pub fn lengths(&self) -> [usize; 2] {
        [self.first, self.second].map(|fish| fish.words.len())
    }

    pub fn covered(&self) -> usize {
        covered(&self.tiles)
    }

    pub fn score(&self) -> usize {
        let [first, second] = self.lengths();
        score(self.covered(), first, second)
    }

    pub fn no_calls(&self) -> [usize; 2] {
        [self.first, self.second].map(no_calls)
    }

    /// It prints this of the two, after what it says of either that is badly typed.
    pub fn prints(&self, text: impl Into<Vec<u8>>) -> Expected {
        Expected::prints(text).after(warnings([self.first, self.second]))
    }

    /// The pair program's listing with one line more before the last.
    pub fn listing(&self) -> String {
        let listing = reference::listing(self.ids(), self.lengths(), self.minimum, &self.tiles);
        let [a, b] = self.no_calls();
        with_no_calls(&listing, [a, b])
    }

    /// The JSON text, in one line.
    pub fn json(&self) -> String {
        let [a, b] = self.ids();
        let [n, m] = self.lengths();
        let [p, q] = self.no_calls();
        let tiles: Vec<String> = self.tiles.iter().map(json_tile).collect();
        format!(
            "{{\"fish\":[{a},{b}],\"minimum\":{},\"lengths\":[{n},{m}],\"no_calls\":[{p},{q}],\"tiles\":[{}],\
             \"covered\":{},\"score\":{}}}\n",
            self.minimum,
            tiles.join(","),
            self.covered(),
            self.score()
        )
    }

    /// What is told of a threshold that is accepted.
    pub fn told(&self, threshold: u32) -> Told {
        let sequences = [self.first, self.second].map(|fish| &fish.words[..]);
        let [n, m] = self.lengths();
        let mut workspace = vec![0; workspace_words(n, m)];
        let settings = Settings::for_minimum(self.minimum);
        let laid = || &self.tiles[..];
        let told = at_least(
            settings,
            sequences,
            self.minimum,
            threshold,
            laid,
            &mut workspace,
        );
        assert_eq!(told.refusal, 0, "a threshold that is accepted");
        told
    }

    /// Whether the score reaches a threshold, and the tiles that this takes.
    pub fn verdict(&self, threshold: u32) -> String {
        let told = self.told(threshold);
        let word = ["NO", "YES"][told.reached as usize];
        format!("AT LEAST {threshold} {word}\nTILES {}\n", told.tiles)
    }

    /// The same as JSON, in one line.
    pub fn verdict_json(&self, threshold: u32) -> String {
        let told = self.told(threshold);
        let [a, b] = self.ids();
        let [n, m] = self.lengths();
        let [p, q] = self.no_calls();
        format!(
            "{{\"fish\":[{a},{b}],\"minimum\":{},\"lengths\":[{n},{m}],\"no_calls\":[{p},{q}],\"threshold\":{threshold},\
             \"reached\":{},\"tiles\":{}}}\n",
            self.minimum,
            ["false", "true"][told.reached as usize],
            told.tiles
        )
    }
}

/// The tool's listing, of the pair program's: the no-calls stand before the score, which is the last line.
pub fn with_no_calls(listing: &str, [first, second]: [usize; 2]) -> String {
    let at = listing.rfind("SCORE ").expect("a listing has a score");
    let (start, score) = listing.split_at(at);
    format!("{start}NO-CALLS {first} {second}\n{score}")
}

fn json_tile(tile: &Tile) -> String {
    format!(
        "{{\"first\":{},\"second\":{},\"length\":{},\"shift\":{}}}",
        tile.first,
        tile.second,
        tile.length,
        tile.second as i64 - tile.first as i64
    )
}

/// Two fish and what is covered of them at each minimum from 1 to 256.
pub struct Covers {
    pub ids: [u16; 2],
    pub lengths: [usize; 2],
    pub covered: [usize; COVER_WORDS],
    pub scores: [usize; COVER_WORDS],
    /// What is said of either fish that is badly typed.
    warnings: Vec<String>,
}

/// The table of covers begins with this line.
pub const COVERS: &str = "first_fish,second_fish,minimum,covered,score\n";

impl Covers {
    /// By a comparison of its own for each minimum.
    pub fn new(first: &Fish, second: &Fish) -> Self {
        let lengths = [first, second].map(|fish| fish.words.len());
        let curve = Curve::of(|minimum| Compared::new(first, second, minimum as u32).tiles);
        let covered = curve.covered.map(|covered| covered as usize);
        Self {
            ids: [first.id, second.id],
            lengths,
            covered,
            scores: covered.map(|covered| score(covered, lengths[0], lengths[1])),
            warnings: [first, second].into_iter().filter_map(warning).collect(),
        }
    }

    /// The rows of the table: of every minimum, or of 1 and those at which the count is another than just before.
    pub fn rows(&self, all: bool) -> String {
        let [a, b] = self.ids;
        let mut rows = String::new();
        for (at, (covered, score)) in self.covered.iter().zip(&self.scores).enumerate() {
            if all || at == 0 || *covered != self.covered[at - 1] {
                rows += &format!("{a},{b},{},{covered},{score}\n", at + 1);
            }
        }
        rows
    }

    /// The table of this pair alone.
    pub fn table(&self) -> String {
        COVERS.to_string() + &self.rows(false)
    }

    /// The JSON text, in one line.
    pub fn json(&self) -> String {
        let ([a, b], [n, m]) = (self.ids, self.lengths);
        let [covered, scores] = [&self.covered, &self.scores].map(|numbers| {
            let numbers: Vec<String> = numbers.iter().map(usize::to_string).collect();
            numbers.join(",")
        });
        format!(
            "{{\"fish\":[{a},{b}],\"lengths\":[{n},{m}],\"covered\":[{covered}],\"score\":[{scores}]}}\n"
        )
    }

    /// It prints this of some pairs, after what it says of their fish that are badly typed.
    pub fn print(pairs: &[&Self], text: impl Into<Vec<u8>>) -> Expected {
        let warnings = pairs.iter().flat_map(|pair| pair.warnings.clone());
        Expected::prints(text).after(said(warnings))
    }

    /// The greatest minimum at which anything is covered; 0 where there is none.
    pub fn last(&self) -> usize {
        let last = self.covered.iter().rposition(|covered| *covered > 0);
        last.map_or(0, |at| at + 1)
    }
}
