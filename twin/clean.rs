// The cleaning program once more, in plain Rust, written from docs/NOISE_FILES.md, docs/EXTRACTION.md, docs/WELL.md and
// docs/REFUSALS.md alone, to be compared with the proved program. It is literal and slow on purpose: small classes are
// listed, factorials are divided out in big numbers, nodes and lanes are kept in maps. Nothing here is proved.
//
//   clean < FILE                cleans one noise file, as the program does
//   clean cases < cases.bin     cleans every case of a pack (two bytes of length, high byte first, then the file), and
//                               writes a line `case I`, from 1, before what each prints

use std::collections::{BTreeMap, VecDeque};
use std::io::{Read, Write};

// ---------------------------------------------------------------------------------------------------------------------
// Whole numbers of any size, as many as the factorial of 60 needs: digits to the base 2^32, lowest first
// ---------------------------------------------------------------------------------------------------------------------

struct Big {
    digits: Vec<u32>,
}

impl Big {
    fn one() -> Big {
        Big { digits: vec![1] }
    }

    fn times(&mut self, factor: u32) {
        let mut carry: u64 = 0;
        for digit in self.digits.iter_mut() {
            let product = u64::from(*digit) * u64::from(factor) + carry;
            *digit = product as u32;
            carry = product >> 32;
        }
        if carry > 0 {
            self.digits.push(carry as u32);
        }
    }

    /// Divides by a number that must divide without remainder.
    fn divided_by(&mut self, divisor: u32) {
        let mut remainder: u64 = 0;
        for digit in self.digits.iter_mut().rev() {
            let here = (remainder << 32) + u64::from(*digit);
            *digit = (here / u64::from(divisor)) as u32;
            remainder = here % u64::from(divisor);
        }
        assert_eq!(remainder, 0, "a division that should be exact has a remainder");
        while self.digits.last() == Some(&0) {
            self.digits.pop();
        }
    }

    fn small(&self) -> u128 {
        assert!(self.digits.len() <= 4, "a number is too large");
        let mut value: u128 = 0;
        for digit in self.digits.iter().rev() {
            value = (value << 32) + u128::from(*digit);
        }
        value
    }
}

// ---------------------------------------------------------------------------------------------------------------------
// Ranking: a block's place in its count class
// ---------------------------------------------------------------------------------------------------------------------

/// How often each code from 0 to size - 1 stands in the block.
fn counts(size: u8, block: &[u8]) -> Vec<u32> {
    (0..size).map(|code| block.iter().filter(|&&c| c == code).count() as u32).collect()
}

/// The size of the class of these counts: the factorial of their sum, divided by the factorial of each.
fn class_size(counts: &[u32]) -> u128 {
    let length: u32 = counts.iter().sum();
    let mut number = Big::one();
    for factor in 1..=length {
        number.times(factor);
    }
    for &count in counts {
        for divisor in 1..=count {
            number.divided_by(divisor);
        }
    }
    number.small()
}

/// All words with these counts, in lexicographic order.
fn class_listed(counts: &[u32]) -> Vec<Vec<u8>> {
    if counts.iter().all(|&count| count == 0) {
        return vec![Vec::new()];
    }
    let mut words = Vec::new();
    for code in 0..counts.len() {
        if counts[code] > 0 {
            let mut rest = counts.to_vec();
            rest[code] -= 1;
            for tail in class_listed(&rest) {
                let mut word = vec![code as u8];
                word.extend(tail);
                words.push(word);
            }
        }
    }
    words
}

/// The number of words of the block's class before the block, found in the list of the class.
fn rank_by_listing(size: u8, block: &[u8]) -> u128 {
    let words = class_listed(&counts(size, block));
    words.iter().position(|word| word == block).expect("a block is in its own class") as u128
}

/// The same number by counting: a word before the block agrees with it up to some place and has a smaller code there.
fn rank_by_counting(size: u8, block: &[u8]) -> u128 {
    let mut before = 0;
    for place in 0..block.len() {
        let left = counts(size, &block[place..]);
        for smaller in 0..block[place] {
            if left[usize::from(smaller)] > 0 {
                let mut rest = left.clone();
                rest[usize::from(smaller)] -= 1;
                before += class_size(&rest);
            }
        }
    }
    before
}

/// Classes up to this size are listed, and then the count is held to the list.
const LISTED: u128 = 300;

fn bits_of_block(size: u8, block: &[u8]) -> Vec<bool> {
    let class = class_size(&counts(size, block));
    let rank = rank_by_counting(size, block);
    if class <= LISTED {
        assert_eq!(rank, rank_by_listing(size, block), "the count and the list disagree");
        assert_eq!(class, class_listed(&counts(size, block)).len() as u128, "the class and its list disagree");
    }
    // The ranks are cut into groups whose lengths are the powers of two in the binary form of the class's size.
    let mut start: u128 = 0;
    for a in (0..128).rev() {
        let length: u128 = 1 << a;
        if class & length != 0 {
            if start <= rank && rank < start + length {
                let t = rank - start;
                return (0..a).rev().map(|bit| (t >> bit) & 1 == 1).collect();
            }
            start += length;
        }
    }
    panic!("a rank is not below the size of its class");
}

fn bits_of_blocks(size: u8, block_length: usize, recording: &[u8]) -> Vec<bool> {
    let mut bits = Vec::new();
    for block in recording.chunks(block_length) {
        bits.extend(bits_of_block(size, block));
    }
    bits
}

// ---------------------------------------------------------------------------------------------------------------------
// Extractors and layers
// ---------------------------------------------------------------------------------------------------------------------

/// A coin extractor with its Peres layers.
enum Coin {
    None,
    Ranking { block_length: usize },
    Peres { depth: u32, below: Box<Coin> },
}

/// A symbol extractor with its layers.
enum Symbol {
    Pairs,
    Ranking { block_length: usize },
    Split { below: Coin },
    Blum { below: Box<Symbol> },
}

fn pairs(recording: &[u8]) -> Vec<bool> {
    let mut bits = Vec::new();
    for pair in recording.chunks_exact(2) {
        if pair[0] < pair[1] {
            bits.push(false);
        }
        if pair[0] > pair[1] {
            bits.push(true);
        }
    }
    bits
}

fn peres(depth: u32, below: &Coin, recording: &[u8]) -> Vec<bool> {
    if depth == 0 {
        return coin_bits(below, recording);
    }
    let mut u = Vec::new();
    let mut v = Vec::new();
    for pair in recording.chunks_exact(2) {
        if pair[0] != pair[1] {
            u.push(1);
        } else {
            u.push(0);
            v.push(pair[0]);
        }
    }
    let mut bits = pairs(recording);
    bits.extend(peres(depth - 1, below, &u));
    bits.extend(peres(depth - 1, below, &v));
    bits
}

fn coin_bits(coin: &Coin, recording: &[u8]) -> Vec<bool> {
    match coin {
        Coin::None => Vec::new(),
        Coin::Ranking { block_length } => bits_of_blocks(2, *block_length, recording),
        Coin::Peres { depth, below } => peres(*depth, below, recording),
    }
}

/// The least whole number for which 2 to its power is at least the size.
fn width(size: u8) -> usize {
    let mut w = 0;
    while (1u32 << w) < u32::from(size) {
        w += 1;
    }
    w
}

fn split(size: u8, below: &Coin, recording: &[u8]) -> Vec<bool> {
    let w = width(size);
    // A node's key is the length of its prefix, then the prefix: the order of the map is the order of the nodes.
    let mut nodes: BTreeMap<(usize, String), Vec<u8>> = BTreeMap::new();
    for &code in recording {
        let written = format!("{:0width$b}", code, width = w);
        assert_eq!(written.len(), w);
        for length in 0..w {
            let prefix = written[..length].to_string();
            let next = written.as_bytes()[length] - b'0';
            nodes.entry((length, prefix)).or_default().push(next);
        }
    }
    // A prefix that no code has makes an empty node, which gives no bits: it is not in the map.
    let mut bits = Vec::new();
    for node in nodes.values() {
        bits.extend(coin_bits(below, node));
    }
    bits
}

fn blum(size: u8, below: &Symbol, recording: &[u8]) -> Vec<bool> {
    let mut lanes: BTreeMap<u8, Vec<u8>> = BTreeMap::new();
    for step in recording.windows(2) {
        lanes.entry(step[0]).or_default().push(step[1]);
    }
    let mut bits = Vec::new();
    for (state, mut lane) in lanes {
        if recording.last() != Some(&state) {
            lane.pop();
        }
        bits.extend(symbol_bits(below, size, &lane));
    }
    bits
}

fn symbol_bits(symbol: &Symbol, size: u8, recording: &[u8]) -> Vec<bool> {
    match symbol {
        Symbol::Pairs => pairs(recording),
        Symbol::Ranking { block_length } => bits_of_blocks(size, *block_length, recording),
        Symbol::Split { below } => split(size, below, recording),
        Symbol::Blum { below } => blum(size, below, recording),
    }
}

fn tower(letter: u8) -> Option<Symbol> {
    match letter {
        b'v' => Some(Symbol::Pairs),
        b'e' => Some(Symbol::Ranking { block_length: 20 }),
        b'p' => Some(Symbol::Split { below: Coin::Peres { depth: 12, below: Box::new(Coin::None) } }),
        b'q' => Some(Symbol::Split {
            below: Coin::Peres { depth: 4, below: Box::new(Coin::Ranking { block_length: 60 }) },
        }),
        b'r' => Some(Symbol::Split { below: Coin::Ranking { block_length: 60 } }),
        b'V' | b'E' | b'P' | b'Q' | b'R' => {
            let below = tower(letter.to_ascii_lowercase()).expect("the same tower without the Blum layer");
            Some(Symbol::Blum { below: Box::new(below) })
        }
        _ => None,
    }
}

// ---------------------------------------------------------------------------------------------------------------------
// Noise files
// ---------------------------------------------------------------------------------------------------------------------

/// The letters of a kind, each at the place of its code.
fn letters(kind: u8) -> Option<&'static [u8]> {
    match kind {
        b'C' => Some(b"HT"),
        b'D' => Some(b"123456"),
        b'L' => Some(b"abcdefghijklmnop"),
        _ => None,
    }
}

struct Refusal {
    number: u32,
    place: usize,
}

struct Entry {
    kind: u8,
    tower_letter: u8,
    size: u8,
    tower: Symbol,
    codes: Vec<u8>,
}

struct Opened {
    key_length: usize,
    entries: Vec<Entry>,
}

fn open(file: &[u8]) -> Result<Opened, Refusal> {
    let refused = |number, place| Err(Refusal { number, place });

    if file.len() < 2 {
        return refused(7, file.len());
    }
    let r = usize::from(file[0]);
    if r == 0 || r > 15 {
        return refused(8, 0);
    }
    let key_length = usize::from(file[1]);
    if key_length == 0 || key_length > 32 {
        return refused(9, 1);
    }
    if file.len() < 2 + 4 * r {
        return refused(7, file.len());
    }

    let mut lengths = Vec::new();
    for i in 0..r {
        if letters(file[2 + 4 * i]).is_none() {
            return refused(10, 2 + 4 * i);
        }
        if tower(file[3 + 4 * i]).is_none() {
            return refused(11, 3 + 4 * i);
        }
        let length = 256 * usize::from(file[4 + 4 * i]) + usize::from(file[5 + 4 * i]);
        if length > 4096 {
            return refused(12, 4 + 4 * i);
        }
        lengths.push(length);
    }

    let bodies_end = 2 + 4 * r + lengths.iter().sum::<usize>();
    if bodies_end != file.len() {
        return refused(13, bodies_end.min(file.len()));
    }

    let mut entries = Vec::new();
    let mut offset = 2 + 4 * r;
    for i in 0..r {
        let kind = file[2 + 4 * i];
        let tower_letter = file[3 + 4 * i];
        let alphabet = letters(kind).expect("judged above");
        let mut codes = Vec::new();
        for _ in 0..lengths[i] {
            match alphabet.iter().position(|&letter| letter == file[offset]) {
                Some(code) => codes.push(code as u8),
                None => return refused(14, offset),
            }
            offset += 1;
        }
        entries.push(Entry {
            kind,
            tower_letter,
            size: alphabet.len() as u8,
            tower: tower(tower_letter).expect("judged above"),
            codes,
        });
    }
    Ok(Opened { key_length, entries })
}

// ---------------------------------------------------------------------------------------------------------------------
// The well
// ---------------------------------------------------------------------------------------------------------------------

struct Well {
    queue: VecDeque<bool>,
    poured: usize,
    loaded: usize,
    out: usize,
}

impl Well {
    fn new() -> Well {
        Well { queue: VecDeque::new(), poured: 0, loaded: 0, out: 0 }
    }

    /// Takes the bits in, and answers the yield and the lean.
    fn feed(&mut self, bits: &[bool]) -> (usize, i64) {
        // Less than a key of 32 bytes is held here, and an entry yields at most 4 times 4,096 bits, so that the well
        // has room for every entry of a file.
        assert!(self.poured + bits.len() <= 16_777_216, "the well refuses by 20");
        assert!(self.queue.len() + bits.len() <= 16_640, "the well refuses by 21");
        let ones = bits.iter().filter(|&&bit| bit).count() as i64;
        let zeros = bits.iter().filter(|&&bit| !bit).count() as i64;
        self.queue.extend(bits);
        self.poured += bits.len();
        (bits.len(), ones - zeros)
    }

    /// Draws a key of so many bytes and loads its slip, or answers nothing where too few bits are held.
    fn draw_and_load(&mut self, key_length: usize) -> Option<Vec<u8>> {
        if self.queue.len() < 8 * key_length {
            return None;
        }
        let mut key = Vec::new();
        for _ in 0..key_length {
            let mut byte = 0u8;
            for _ in 0..8 {
                let bit = self.queue.pop_front().expect("enough bits are held");
                byte = 2 * byte + u8::from(bit);
            }
            key.push(byte);
        }
        // The draw puts the bits out on a slip, and loading the slip takes them from there.
        self.out += 8 * key_length;
        self.out -= 8 * key_length;
        self.loaded += 8 * key_length;
        assert_eq!(self.loaded + self.out + self.queue.len(), self.poured);
        Some(key)
    }
}

// ---------------------------------------------------------------------------------------------------------------------
// The program
// ---------------------------------------------------------------------------------------------------------------------

/// The most bytes that the program reads, one more than the longest file has.
const READ: usize = 61_503;

/// What the program prints for a file.
fn text(file: &[u8]) -> String {
    let opened = match open(file) {
        Ok(opened) => opened,
        Err(Refusal { number, place }) => return format!("refused {number} file {place}\n"),
    };
    let mut text = String::new();
    let mut well = Well::new();
    for (i, entry) in opened.entries.iter().enumerate() {
        let bits = symbol_bits(&entry.tower, entry.size, &entry.codes);
        assert!(bits.len() <= width(entry.size) * entry.codes.len());
        let (given, lean) = well.feed(&bits);
        text += &format!(
            "{} {} {} {} {} {}\n",
            i + 1,
            char::from(entry.kind),
            char::from(entry.tower_letter),
            entry.codes.len(),
            given,
            lean
        );
        while let Some(key) = well.draw_and_load(opened.key_length) {
            let digits: String = key.iter().map(|byte| format!("{byte:02x}")).collect();
            text += &format!("key {digits}\n");
        }
    }
    text += &format!("poured {} loaded {} held {}\n", well.poured, well.loaded, well.queue.len());
    text
}

/// What the program prints for each case of a pack, with a line before each.
fn text_of_cases(pack: &[u8]) -> String {
    let mut text_of_all = String::new();
    let mut rest = pack;
    let mut number = 0;
    while !rest.is_empty() {
        let length = 256 * usize::from(rest[0]) + usize::from(rest[1]);
        let file = &rest[2..2 + length];
        number += 1;
        text_of_all += &format!("case {number}\n");
        text_of_all += &text(&file[..file.len().min(READ)]);
        rest = &rest[2 + length..];
    }
    text_of_all
}

fn main() {
    let arguments: Vec<String> = std::env::args().skip(1).collect();
    let mut input = Vec::new();
    let printed = if arguments.is_empty() {
        std::io::stdin().take(READ as u64).read_to_end(&mut input).expect("standard input can be read");
        text(&input)
    } else if arguments == ["cases"] {
        std::io::stdin().read_to_end(&mut input).expect("standard input can be read");
        text_of_cases(&input)
    } else {
        eprintln!("usage: clean < FILE, or clean cases < PACK");
        std::process::exit(2);
    };
    std::io::stdout().write_all(printed.as_bytes()).expect("standard output can be written");
}

// ---------------------------------------------------------------------------------------------------------------------
// The worked examples of the documents (rustc --test)
// ---------------------------------------------------------------------------------------------------------------------

#[cfg(test)]
mod worked_examples {
    use super::*;

    fn digits(text: &str) -> Vec<u8> {
        text.bytes().map(|byte| byte - b'0').collect()
    }

    fn shown(bits: Vec<bool>) -> String {
        bits.into_iter().map(|bit| if bit { '1' } else { '0' }).collect()
    }

    #[test]
    fn pairs_give() {
        assert_eq!(shown(symbol_bits(&Symbol::Pairs, 2, &digits("0110001"))), "01");
    }

    #[test]
    fn coin_ranking_gives() {
        assert_eq!(rank_by_counting(2, &digits("1001")), 3);
        assert_eq!(class_size(&counts(2, &digits("1001"))), 6);
        let ranking = Coin::Ranking { block_length: 4 };
        assert_eq!(shown(coin_bits(&ranking, &digits("1001"))), "11");
        assert_eq!(rank_by_counting(2, &digits("1100")), 5);
        assert_eq!(shown(coin_bits(&ranking, &digits("1100"))), "1");
    }

    #[test]
    fn symbol_ranking_gives() {
        assert_eq!(rank_by_counting(3, &digits("201")), 4);
        assert_eq!(class_size(&counts(3, &digits("201"))), 6);
        assert_eq!(shown(symbol_bits(&Symbol::Ranking { block_length: 3 }, 3, &digits("201"))), "0");
    }

    #[test]
    fn peres_gives() {
        let none = Coin::Peres { depth: 2, below: Box::new(Coin::None) };
        assert_eq!(shown(coin_bits(&none, &digits("01110010"))), "01101");
        let ranking = Coin::Peres { depth: 1, below: Box::new(Coin::Ranking { block_length: 4 }) };
        assert_eq!(shown(coin_bits(&ranking, &digits("01110010"))), "01111");
    }

    #[test]
    fn split_gives() {
        let below = Coin::Peres { depth: 1, below: Box::new(Coin::None) };
        assert_eq!(shown(symbol_bits(&Symbol::Split { below }, 4, &digits("2130"))), "1110");
    }

    #[test]
    fn blum_gives() {
        let over_pairs = Symbol::Blum { below: Box::new(Symbol::Pairs) };
        assert_eq!(shown(symbol_bits(&over_pairs, 3, &digits("02010110201"))), "100");
        assert_eq!(shown(symbol_bits(&over_pairs, 2, &digits("001"))), "");
        assert_eq!(shown(symbol_bits(&over_pairs, 2, &digits("0010"))), "0");
        assert_eq!(shown(symbol_bits(&over_pairs, 2, &digits("0100"))), "1");
    }

    #[test]
    fn pairs_are_blocks_of_two() {
        for recording in ["", "0", "3120", "55012345", "0123450", "111"] {
            let pairs = symbol_bits(&Symbol::Pairs, 6, &digits(recording));
            assert_eq!(pairs, symbol_bits(&Symbol::Ranking { block_length: 2 }, 6, &digits(recording)));
        }
    }

    #[test]
    fn the_program_prints() {
        let mut file = vec![3, 1, b'C', b'v', 0, 7, b'L', b'V', 0, 11, b'C', b'p', 0, 8];
        file.extend(b"HTTHHHTacababbacabHTTTHHTH");
        let expected = "1 C v 7 2 0\n2 L V 11 3 -1\n3 C p 8 5 1\nkey 63\npoured 10 loaded 8 held 2\n";
        assert_eq!(text(&file), expected);
    }
}
