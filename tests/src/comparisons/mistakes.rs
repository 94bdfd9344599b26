//! 01's "Where earlier builds went astray", a group for each mistake. Most pairs are built so that
//! their tiles are known beforehand, apart from any tiling.

use super::plan::Plan;
use super::{compare, listed, Problem};
use crate::engine::{Engine, BUCKETS};
use crate::group::Group;
use crate::known::Letters;
use crate::pairs::{calls, distinct, shuffled, Pair, Sides};
use crate::random::Random;
use crate::reference::{window_hashes, MAX_WORDS};
use crate::samples::{call, NO_CALL, ORDERS};

/// "Skipping a free stretch of exactly the minimum length": runs and free stretches one word short
/// of the minimum, of the minimum, and one word longer.
pub fn exact_minimum(g: &mut Group) {
    for s in 1..=256 {
        let minimum = s as u32;
        for length in [s - 1, s, s + 1] {
            let x = distinct(0, length);
            let alone = Plan::new(&[&x], &[&x], &[[0, 0, length]]);
            alone.expect(g, minimum);
            let between = Plan::new(&[&x], &[&[NO_CALL], &x, &[NO_CALL]], &[[0, 1, length]]);
            between.expect(g, minimum);
            // K11: after the longer block is laid, the other one is all that is free.
            let longer = distinct(length, length + 1);
            let tiles = [[length, 0, length + 1], [0, length + 1, length]];
            let plan = Plan::new(&[&x, &longer], &[&longer, &x], &tiles);
            plan.expect(g, minimum);
            plan.lengthen(1).expect(g, minimum);
        }
    }
    for s in [1, 2, 3, 4, 8] {
        for sizes in (0..27).map(|n| [n / 9, n / 3 % 3, n % 3].map(|more| s - 1 + more)) {
            let blocks: [Vec<u32>; 3] = std::array::from_fn(|i| distinct(100 * i, sizes[i]));
            for order in ORDERS {
                let second = order.map(|i| &blocks[i][..]).concat();
                let pair = [&blocks.concat()[..], &second];
                let case = format_args!("blocks of {sizes:?}, order {order:?}, minimum {s}");
                compare(g, case, pair, s as u32);
            }
        }
    }
}

/// "Dropping a run partly covered by a tile, when its remainder is still long enough": the end, the
/// start or the middle of a run is left, on the pattern, the text or both.
pub fn remainders(g: &mut Group) {
    let mut sizes: Vec<[usize; 3]> = (0..216)
        .map(|n| [n / 36, n / 6 % 6, n % 6].map(|size| size + 1))
        .collect();
    sizes.extend([[300, 20, 256], [256, 20, 300], [300, 1, 255], [40, 256, 40]]);
    for [a, b, c] in sizes {
        let [block_a, block_b, block_c] =
            [(1_000, a), (2_000, b), (3_000, c)].map(|(at, n)| distinct(at, n));
        let (block_a, block_b, block_c) = (&block_a[..], &block_b[..], &block_c[..]);
        let gap = &[NO_CALL][..];
        let mut minimums: Vec<u32> = [1, 2, a, b, c, a + 1, b + 1, c + 1, a + b, b + c]
            .into_iter()
            .filter(|minimum| (1..=256).contains(minimum))
            .map(|minimum| minimum as u32)
            .collect();
        minimums.sort_unstable();
        minimums.dedup();

        // Two runs share B: the longer takes it, of equal ones the earlier; A or C is left.
        let early = a >= c;
        let on_pattern = if early {
            [[0, 0, a + b], [a + b, a + b + 1 + b, c]]
        } else {
            [[a, a + b + 1, b + c], [0, 0, a]]
        };
        let twice = [block_a, block_b, gap, block_b, block_c];
        let once = [block_a, block_b, block_c];
        let shared_on_pattern = Plan::new(&once, &twice, &on_pattern);
        let on_text = on_pattern.map(|[p, t, length]| [t, p, length]);
        let shared_on_text = Plan::new(&twice, &once, &on_text).lengthen(1);

        let mut plans = vec![shared_on_pattern, shared_on_text];

        // The run A B C loses A on the pattern to Z A and C on the text to C Y; B is left. Z has the
        // smallest codes, so that of equal lengths the sequence that begins with it is the pattern.
        for [more_z, more_y] in [[1, 1], [1, 2], [2, 1]] {
            let (z, y) = (b + c + more_z, a + b + more_y);
            let [block_z, block_y] = [(0, z), (4_000, y)].map(|(at, n)| distinct(at, n));
            let (block_z, block_y) = (&block_z[..], &block_y[..]);
            let mut tiles = [
                [0, a + b + c + y + 1, z + a],
                [z + a + b + c + 1, a + b, c + y],
                [z + a, a, b],
            ];
            if c + y > z + a {
                tiles.swap(0, 1);
            }
            let pattern = [block_z, block_a, block_b, block_c, gap, block_c, block_y];
            let text = [block_a, block_b, block_c, block_y, gap, block_z, block_a];
            plans.push(Plan::new(&pattern, &text, &tiles).lengthen(0));
        }
        for plan in plans {
            for &minimum in &minimums {
                plan.expect(g, minimum);
            }
        }
    }
}

/// "Ordering ties by first strand when the second is the pattern": blocks of one length in another
/// order, copies of one block, and sequences of one code.
pub fn ties(g: &mut Group) {
    for _ in 0..1_500 {
        let random = &mut g.random;
        let (count, length) = (1 + random.below(8), 1 + random.below(4));
        let [front, more] = [(); 2].map(|()| random.below(4));
        let place = |at: usize| at * (length + 1);
        let order = shuffled(random, count);
        let blocks: Vec<Vec<u32>> = (0..count)
            .map(|i| [&distinct(100 * i, length)[..], &[NO_CALL]].concat())
            .collect();
        let text: Vec<&[u32]> = order.iter().map(|&i| &blocks[i][..]).collect();
        let mut tiles = vec![[0; 3]; count];
        for (at, &i) in order.iter().enumerate() {
            tiles[i] = [place(i), front + place(at), length];
        }
        let pattern = blocks.concat();
        let text = [vec![NO_CALL; front], text.concat()].concat();
        let plan = Plan::new(&[&pattern], &[&text], &tiles).lengthen(more);
        let minimum = 1 + g.random.below(length) as u32;
        plan.expect(g, minimum);
    }
    for length in [1, 2, 3, 20] {
        let block = [&distinct(0, length)[..], &[NO_CALL]].concat();
        for n in 1..=6 {
            for m in 1..=6 {
                let both = (0..n.min(m)).map(|i| [i * (length + 1), i * (length + 1), length]);
                let copies = [n, m].map(|count| block.repeat(count));
                let plan = Plan::new(&[&copies[0]], &[&copies[1]], &both.collect::<Vec<_>>());
                plan.lengthen(1).expect(g, length as u32);
            }
        }
    }
    let mut lengths: Vec<[usize; 2]> = (0..=40)
        .flat_map(|m| (0..=m).map(move |n| [n, m]))
        .collect();
    lengths.extend([[1, MAX_WORDS], [MAX_WORDS - 1, MAX_WORDS], [MAX_WORDS; 2]]);
    for [n, m] in lengths {
        let plan = Plan::new(&[&vec![call(9); n]], &[&vec![call(9); m]], &[[0, 0, n]]);
        for minimum in [1, 2, 20] {
            plan.expect(g, minimum);
        }
    }
}

/// "Returning early when the shorter strand is below the minimum, with the workspace as found": also
/// where it is empty, where nothing matches, and where each run is one word short.
pub fn early_ends(g: &mut Group) {
    let none = |g: &mut Group, pattern: &[u32], text: &[u32], minimum: u32| {
        Plan::new(&[pattern], &[text], &[]).expect(g, minimum);
    };
    for longer in [0, 1, 2, 20, 255, 256, MAX_WORDS] {
        let text = distinct(0, longer);
        for shorter in [0, 1, 2, 3, 19, 20, 254, 255] {
            for minimum in [1, 2, 3, 4, 20, 21, 255, 256] {
                if shorter <= longer && shorter < minimum {
                    none(g, &text[..shorter], &text, minimum as u32);
                }
            }
        }
        for minimum in [1, 2, 256] {
            none(g, &[], &text, minimum);
            none(g, &text, &vec![NO_CALL; longer], minimum);
            none(g, &vec![NO_CALL; longer], &vec![NO_CALL; longer], minimum);
            none(g, &text, &distinct(MAX_WORDS, longer), minimum);
        }
    }
    for length in 1..=20 {
        let block = [&distinct(0, length)[..], &[NO_CALL]].concat();
        for count in 1..=4 {
            let pattern = block.repeat(count);
            none(g, &pattern, &block.repeat(count + 1), length as u32 + 1);
        }
    }
}

/// "At minimum 1, K7 is covered in full though the strands differ": calls and the same calls in any
/// order.
pub fn in_full(g: &mut Group) {
    for number in 0..3_000 {
        let random = &mut g.random;
        let length = 1 + random.below(40);
        let codes = random.pick(&[1, 2, 3, 6, 65_535]);
        let first = calls(random, length, codes);
        let order = shuffled(random, length);
        let pair: Pair = [order.iter().map(|&i| first[i]).collect(), first];
        let pair: Sides = [&pair[0], &pair[1]];
        let problem = Problem::new(pair, 1);
        for engine in problem.engines(&mut g.random) {
            let (answer, _) = listed(engine, pair, 1);
            let case = format_args!("{engine}: pair {number}: {}", Letters(pair[0]));
            g.equal(case, (answer.covered, answer.score), (length as u32, 1_000));
            problem.compare_by(g, format_args!("pair {number}"), engine, 0);
        }
    }
}

/// Other words with the same hash: of two neighbours the first is less by d and the second more by
/// d times the multiplier.
fn twin(random: &mut Random, words: &[u32], multiplier: u32) -> Vec<u32> {
    let at = random.below(words.len() - 1);
    let mut less = 1 + random.below(3) as u32;
    if multiplier == 1 << 31 {
        less *= 2;
    }
    let more = less.wrapping_mul(multiplier);
    let mut twin = words.to_vec();
    twin[at] = twin[at].wrapping_sub(less);
    twin[at + 1] = twin[at + 1].wrapping_add(more);
    twin
}

/// "Trusting equal hashes": windows of different words that hash alike, in front of the equal ones,
/// behind them and instead of them.
pub fn equal_hashes(g: &mut Group) {
    for number in 0..4_000 {
        let random = &mut g.random;
        let any = random.below(10_000) as u32;
        let multiplier = random.pick(&[0, 1, 2, 257, 1 << 31, u32::MAX, u32::MAX - 1, any]);
        let longest = random.pick(&[4, 12, 40]);
        let length = 2 + random.below(longest - 1);
        let window: Vec<u32> = (0..length)
            .map(|_| call(31_000 + random.below(1_000) as u16))
            .collect();
        let twins = [(); 3].map(|()| twin(random, &window, multiplier));
        let hash = |words: &[u32]| window_hashes(words, multiplier, length)[0];
        let case = format_args!("window {number} and its twins, multiplier {multiplier}");
        g.equal(case, twins.each_ref().map(|t| hash(t)), [hash(&window); 3]);
        let gap = &[NO_CALL][..];
        let [a, b, c] = twins.each_ref().map(|twin| &twin[..]);
        let pairs: [Pair; 5] = [
            [window.clone(), a.to_vec()],
            [window.clone(), [a, gap, &window].concat()],
            [window.clone(), [&window, gap, a].concat()],
            [window.clone(), [a, b, &window, c].concat()],
            [[a, &window].concat(), [b, c, gap, &window, a].concat()],
        ];
        for pair in &pairs {
            let random = &mut g.random;
            let minimum = random.pick(&[1, 2, length as u32, 1 + length as u32 / 2]);
            let buckets = random.pick(&BUCKETS);
            let start = (length as u32).max(minimum);
            let [first, second] = pair;
            let problem = Problem::new([first, second], minimum);
            for engine in [Engine::Plain, Engine::fast(multiplier, buckets, start)] {
                let case = format_args!("window {number} of {length} words, minimum {minimum}");
                problem.compare_by(g, case, engine, 0);
            }
        }
    }
}
