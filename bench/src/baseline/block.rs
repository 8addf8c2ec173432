//! Repair of one block: Reed–Solomon decoding of altered and unknown symbols at a level, as far as
//! twice the altered ones plus the unknown ones are below the level's distance.

use super::code::{Block, Code};
use super::field::{Field, MAX_Q};
use super::received::Received;

/// A polynomial with a root for each unknown or altered symbol, at most as many as there are
/// syndromes, lowest power first.
type Polynomial = Block;

/// A repaired block, and which of its known symbols the repair altered.
#[derive(Debug, PartialEq)]
pub struct Repaired {
    pub codeword: Block,
    /// True where a known received symbol and the repaired one differ; false past the block.
    pub marks: [bool; MAX_Q],
}

impl Repaired {
    /// A block as it was received, no symbol marked.
    fn unmarked(code: &Code, block: &[u8]) -> Repaired {
        Repaired { codeword: code.block(block), marks: [false; MAX_Q] }
    }
}

/// A product of 1 − X x over some places' X = α^i, and how many places these are.
#[derive(Clone, Copy)]
struct Locator {
    product: Polynomial,
    degree: usize,
}

/// The level-l codeword within the repair limit of a block with its marks, if there is one. An
/// unknown symbol of the block may have any value.
pub fn repair(code: &Code, l: usize, block: &[u8], received: impl Received) -> Option<Repaired> {
    let mut syndromes = Block::default();
    let syndromes = &mut syndromes[..code.syndrome_count(l)];
    for (i, syndrome) in syndromes.iter_mut().enumerate() {
        *syndrome = code.syndrome(block, i);
    }
    let unknown = unknown_places(code, received, syndromes.len())?;
    if syndromes.iter().all(|&syndrome| syndrome == 0) {
        return Some(Repaired::unmarked(code, block));
    }
    let locator = locator(&code.field, syndromes, unknown)?;
    correct(code, block, received, syndromes, &locator.product[..=locator.degree])
}

/// The locator of the unknown symbols' places, if there are at most so many.
fn unknown_places(code: &Code, received: impl Received, most: usize) -> Option<Locator> {
    let mut locator = Locator { product: Polynomial::default(), degree: 0 };
    locator.product[0] = 1;
    for (i, &place) in code.places().iter().enumerate() {
        if !received.is_unknown(i) {
            continue;
        }
        if locator.degree == most {
            return None;
        }
        let before = locator.product;
        code.field.add_multiple(&mut locator.product[1..], code.field.negate(place), &before);
        locator.degree += 1;
    }
    Some(locator)
}

/// The locator of the unknown and the altered places, if within the limit: Massey's shortest
/// register that makes the syndromes, begun with the unknown places. Of an altered symbol place and
/// value are to be found, so each takes two syndromes, where an unknown one takes one.
#[inline(always)]
fn locator(field: &Field, syndromes: &[u8], unknown: Locator) -> Option<Locator> {
    let begun = unknown.degree;
    let limit = (syndromes.len() + begun) / 2;
    let mut locator = unknown;
    let mut previous = unknown;
    let mut previous_discrepancy = 1;
    let mut shift = 1;
    for r in begun..syndromes.len() {
        let discrepancy = (0..=locator.degree)
            .fold(0, |sum, i| field.add(sum, field.multiply(locator.product[i], syndromes[r - i])));
        if discrepancy == 0 {
            shift += 1;
            continue;
        }
        let longer = 2 * locator.degree <= r + begun;
        if longer && r + 1 + begun - locator.degree > limit {
            return None;
        }
        let before = locator;
        let factor = field.negate(field.divide(discrepancy, previous_discrepancy));
        let row = &previous.product[..=previous.degree];
        field.add_multiple(&mut locator.product[shift..], factor, row);
        if longer {
            locator.degree = r + 1 + begun - locator.degree;
            previous = before;
            previous_discrepancy = discrepancy;
            shift = 0;
        }
        shift += 1;
    }
    Some(locator)
}

/// The block with the located symbols corrected and marked, if the locator has all its roots among
/// the places.
fn correct(
    code: &Code,
    block: &[u8],
    received: impl Received,
    syndromes: &[u8],
    locator: &[u8],
) -> Option<Repaired> {
    let field = &code.field;
    let degree = locator.len() - 1;
    let evaluator = evaluator(field, syndromes, locator);
    let mut repaired = Repaired::unmarked(code, block);
    let symbols = repaired.codeword.iter_mut().zip(&mut repaired.marks);
    let mut found = 0;
    for (i, ((symbol, mark), &place)) in symbols.zip(code.places()).enumerate() {
        let root = field.divide(1, place);
        if field.value(locator, root) == 0 {
            let error = error_value(field, &evaluator[..degree], locator, root);
            *symbol = field.subtract(*symbol, error);
            *mark = error != 0 && !received.is_unknown(i);
            found += 1;
        }
    }
    (found == degree).then_some(repaired)
}

/// Forney's error value at the place 1/root: −Ω(root) / (root Λ'(root)), with locator Λ, evaluator
/// Ω.
fn error_value(field: &Field, evaluator: &[u8], locator: &[u8], root: u8) -> u8 {
    let slope = locator.iter().enumerate().rev().fold(0, |value, (i, &coefficient)| {
        let term = field.multiply(field.integer(i), coefficient);
        field.add(term, field.multiply(root, value))
    });
    field.negate(field.divide(field.value(evaluator, root), slope))
}

/// The product of syndromes and locator below the locator's degree.
fn evaluator(field: &Field, syndromes: &[u8], locator: &[u8]) -> Polynomial {
    let degree = locator.len() - 1;
    let mut evaluator = Polynomial::default();
    for (i, &coefficient) in locator.iter().take(degree).enumerate() {
        field.add_multiple(&mut evaluator[i..degree], coefficient, syndromes);
    }
    evaluator
}

#[cfg(test)]
mod tests {
    use super::super::received::{known, Known};
    use super::*;
    use crate::calls::UNKNOWN;
    use crate::sample::Random;

    /// The most codewords of a level that are enumerated.
    const MAX_CODEWORDS: usize = 1 << 18;

    /// Every setting and level.
    fn levels() -> impl Iterator<Item = (u64, &'static Code, usize)> {
        let codes = (1..).map_while(|number| Some((number, Code::of(number)?)));
        codes.flat_map(|(number, code)| (0..=code.m).map(move |l| (number, code, l)))
    }

    /// The rows of G_0 to G_l.
    fn rows(code: &Code, l: usize) -> impl Iterator<Item = &[u8]> {
        (0..=l).flat_map(move |j| (0..code.k).map(move |r| code.row(j, r)))
    }

    /// A random codeword of level l, as a sum of multiples of these rows.
    fn codeword(random: &mut Random, code: &Code, l: usize) -> Block {
        rows(code, l).fold(Block::default(), |mut sum, row| {
            let factor = random.below(code.field.q()) as u8;
            code.field.add_multiple(&mut sum[..code.n], factor, row);
            sum
        })
    }

    /// All codewords of level l, unless they are too many.
    fn codewords(code: &Code, l: usize) -> Option<Vec<Block>> {
        let mut codewords = vec![Block::default()];
        for row in rows(code, l) {
            if codewords.len() * code.field.q() > MAX_CODEWORDS {
                return None;
            }
            let multiples = |codeword: &Block| {
                let codeword = *codeword;
                (0..code.field.q() as u8).map(move |factor| {
                    let mut sum = codeword;
                    code.field.add_multiple(&mut sum[..code.n], factor, row);
                    sum
                })
            };
            codewords = codewords.iter().flat_map(multiples).collect();
        }
        Some(codewords)
    }

    /// Twice the known symbols of a received block that differ from a codeword, plus the unknown
    /// ones.
    fn damage(codeword: &Block, block: &Block) -> usize {
        let pairs = codeword.iter().zip(block);
        pairs.map(|(a, &b)| if b == UNKNOWN { 1 } else { 2 * usize::from(*a != b) }).sum()
    }

    /// A codeword with so many symbols altered and so many dropped.
    fn damaged(
        random: &mut Random,
        code: &Code,
        codeword: &Block,
        altered: usize,
        unknown: usize,
    ) -> Block {
        let mut block = *codeword;
        let mut places = random.order(code.n).into_iter();
        for place in places.by_ref().take(altered) {
            let step = random.between(1, code.field.q() - 1);
            block[place] = ((block[place] as usize + step) % code.field.q()) as u8;
        }
        places.take(unknown).for_each(|place| block[place] = UNKNOWN);
        block
    }

    /// So many altered and so many unknown symbols of a block: every mix with damage up to a bound.
    fn mixes(code: &Code, most: usize) -> impl Iterator<Item = (usize, usize)> + '_ {
        let unknown = move |altered| (0..=code.n - altered).map(move |unknown| (altered, unknown));
        let mixes = (0..=code.n).flat_map(unknown);
        mixes.filter(move |(altered, unknown)| 2 * altered + unknown <= most)
    }

    /// What repair makes of a received block, whatever stands in the place of its unknown symbols.
    fn repaired(random: &mut Random, code: &Code, l: usize, block: &Block) -> Option<Repaired> {
        let received = &block[..code.n];
        let zeros = Vec::from_iter(received.iter().map(|&symbol| known(symbol)));
        let repaired = repair(code, l, &zeros, received);
        if zeros == received {
            assert_eq!(repair(code, l, received, Known), repaired);
        }
        let mut others = zeros;
        for (symbol, _) in others.iter_mut().zip(received).filter(|pair| *pair.1 == UNKNOWN) {
            *symbol = random.below(code.field.q()) as u8;
        }
        assert_eq!(repair(code, l, &others, received), repaired);
        repaired
    }

    /// A received block repaired to this codeword, with its marks by definition.
    fn repaired_to(codeword: &Block, block: &Block) -> Repaired {
        let marks = std::array::from_fn(|i| block[i] != UNKNOWN && block[i] != codeword[i]);
        Repaired { codeword: *codeword, marks }
    }

    /// The received block repaired to each of the codewords within the repair limit.
    fn near(code: &Code, l: usize, codewords: &[Block], block: &Block) -> Vec<Repaired> {
        let is_near = |codeword: &&Block| damage(codeword, block) <= code.syndrome_count(l);
        let near = codewords.iter().filter(is_near);
        near.map(|codeword| repaired_to(codeword, block)).collect()
    }

    /// Every mix of altered and unknown symbols, up to the limit and a little beyond it.
    #[test]
    fn repair_finds_the_one_codeword_within_the_limit() {
        let random = &mut Random::new(10);
        for (setting, code, l) in levels() {
            let Some(codewords) = codewords(code, l) else {
                continue;
            };
            for (altered, unknown) in mixes(code, code.syndrome_count(l) + 3) {
                for _ in 0..(100_000 / codewords.len()).clamp(5, 200) {
                    let codeword = *random.pick(&codewords);
                    let block = damaged(random, code, &codeword, altered, unknown);
                    let repaired = repaired(random, code, l, &block);
                    let near = near(code, l, &codewords, &block);
                    assert_eq!(
                        repaired.as_slice(),
                        near,
                        "setting {setting}, level {l}: {block:?}"
                    );
                }
            }
        }
    }

    /// Whether this is a codeword within the limit, with its marks.
    fn is_right(code: &Code, l: usize, found: &Repaired, block: &Block) -> bool {
        let vanishes = |i| code.syndrome(&found.codeword[..code.n], i) == 0;
        *found == repaired_to(&found.codeword, block)
            && damage(&found.codeword, block) <= code.syndrome_count(l)
            && (0..code.syndrome_count(l)).all(vanishes)
    }

    /// Of every level, also of those with too many codewords to enumerate, with every mix of
    /// altered and unknown symbols: within the limit the codeword comes back; with just one more no
    /// codeword is near, since another one differs from this one in d_l symbols; beyond that what
    /// comes back is a codeword within the limit. Its marks are where a known symbol differs from
    /// it.
    #[test]
    fn repair_finds_a_damaged_codeword_again() {
        let random = &mut Random::new(11);
        for (setting, code, l) in levels() {
            let limit = code.syndrome_count(l);
            for (altered, unknown) in mixes(code, 2 * code.n) {
                for _ in 0..100 {
                    let codeword = codeword(random, code, l);
                    let block = damaged(random, code, &codeword, altered, unknown);
                    let repaired = repaired(random, code, l, &block);
                    let damage = 2 * altered + unknown;
                    let right = match repaired {
                        _ if damage <= limit => repaired == Some(repaired_to(&codeword, &block)),
                        _ if damage == limit + 1 => repaired.is_none(),
                        Some(found) => is_right(code, l, &found, &block),
                        None => true,
                    };
                    assert!(right, "setting {setting}, level {l}: {block:?} from {codeword:?}");
                }
            }
        }
    }

    /// The verified block step's test program: its input, a block a line, and its output, the
    /// counts and then an answer a line.
    const STDIN: &str = include_str!("../../../crates/block_test/stdin");
    const STDOUT: &str = include_str!("../../../crates/block_test/stdout");

    /// Settings and levels with the stride from block to block, as the program counts them.
    const COUNTED: [(u64, usize, usize); 8] = [
        (1, 0, 1),
        (1, 1, 1),
        (1, 2, 1),
        (2, 0, 523),
        (2, 1, 523),
        (2, 2, 16001),
        (3, 0, 523),
        (3, 1, 16001),
    ];

    /// Block `number`: symbol i is the digit of q^i.
    fn numbered(code: &Code, number: usize) -> Block {
        let q = code.field.q();
        let digit = |i| (number / q.pow(i as u32) % q) as u8;
        std::array::from_fn(|i| if i < code.n { digit(i) } else { 0 })
    }

    /// The verified block step's stored counts: blocks, those near a codeword, those where repair
    /// and enumeration agree.
    #[test]
    fn counts_are_those_of_the_verified_block_step() {
        let mut counts = Vec::new();
        for (setting, l, stride) in COUNTED {
            let code = Code::of(setting).unwrap();
            let codewords = codewords(code, l).expect("few codewords");
            let (mut blocks, mut near_blocks, mut agreed) = (0, 0, 0);
            for number in (0..code.field.q().pow(code.n as u32)).step_by(stride) {
                let block = numbered(code, number);
                let near = near(code, l, &codewords, &block);
                blocks += 1;
                near_blocks += usize::from(!near.is_empty());
                agreed += usize::from(repair(code, l, &block[..code.n], Known).as_slice() == near);
            }
            counts.push(format!("{setting} {l} {blocks} {near_blocks} {agreed}"));
        }
        assert_eq!(counts, Vec::from_iter(STDOUT.lines().take(COUNTED.len())));
    }

    /// What the program writes for a line: the codeword or "none", and the marks.
    fn answer(line: &str) -> String {
        let words = Vec::from_iter(line.split(' '));
        let [setting, l, block] = words[..] else { panic!("no block: {line}") };
        let code = Code::of(number(setting)).unwrap();
        let symbols = block.as_bytes().chunks(2).map(|digits| std::str::from_utf8(digits).unwrap());
        let received = Vec::from_iter(symbols.map(|digits| number(digits) as u8));
        let block = Vec::from_iter(received.iter().map(|&symbol| known(symbol)));
        let (codeword, marks) = match repair(code, number(l) as usize, &block, &received[..]) {
            Some(Repaired { codeword, marks }) => (hexadecimal(&codeword[..code.n]), marks),
            None => ("none".to_string(), [false; MAX_Q]),
        };
        let digits = marks[..code.n].iter().map(|&mark| if mark { '1' } else { '0' });
        format!("{codeword} {}", String::from_iter(digits))
    }

    fn number(hexadecimal: &str) -> u64 {
        u64::from_str_radix(hexadecimal, 16).unwrap()
    }

    fn hexadecimal(symbols: &[u8]) -> String {
        symbols.iter().map(|symbol| format!("{symbol:02x}")).collect()
    }

    /// The verified block step's stored answers, one for each line of the input.
    #[test]
    fn answers_are_those_of_the_verified_block_step() {
        let stored = Vec::from_iter(STDOUT.lines().skip(COUNTED.len()));
        assert!(!stored.is_empty());
        assert_eq!(stored.len(), STDIN.lines().count());
        for (line, right) in STDIN.lines().zip(stored) {
            assert_eq!(answer(line), right, "{line}");
        }
    }
}
