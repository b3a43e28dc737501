// The cleaning program in plain, efficient Rust, to measure against: what a careful engineer would write without
// proofs. It reads and prints the same as the program (docs/NOISE_FILES.md), and is compared with it too.
//
//   fast < FILE                          cleans one noise file
//   fast bench TOWER KIND N REPEAT       runs a tower's extraction REPEAT times on a recording of N symbols, and prints
//                                        nanoseconds a run (least and median) and the yield
//   fast recording KIND N                prints the letters of that recording
//
// The recording comes from splitmix64, started at 1: a code is the smaller of the remainders by the size of the upper
// and the lower 32 bits of a number, so that low codes are favoured.

use std::hint::black_box;
use std::io::{Read, Write};
use std::time::Instant;

// ---------------------------------------------------------------------------------------------------------------------
// Extractors: bits are appended as bytes 0 and 1. Scratch space is kept from one call to the next.
// ---------------------------------------------------------------------------------------------------------------------

trait CoinExtractor {
    fn extract(&mut self, coins: &[u8], bits: &mut Vec<u8>);
}

trait SymbolExtractor {
    fn extract(&mut self, size: usize, codes: &[u8], bits: &mut Vec<u8>);
}

struct NoBits;

impl CoinExtractor for NoBits {
    #[inline]
    fn extract(&mut self, _: &[u8], _: &mut Vec<u8>) {}
}

struct Pairs;

impl SymbolExtractor for Pairs {
    fn extract(&mut self, _: usize, codes: &[u8], bits: &mut Vec<u8>) {
        let start = bits.len();
        bits.resize(start + codes.len() / 2, 0);
        let out = &mut bits[start..];
        let mut given = 0;
        for pair in codes.chunks_exact(2) {
            out[given] = u8::from(pair[0] > pair[1]);
            given += usize::from(pair[0] != pair[1]);
        }
        bits.truncate(start + given);
    }
}

/// The bits of a rank in a class: above the highest bit in which the two differ the groups are passed, and that bit is
/// the length of the group that holds the rank.
#[inline]
fn push_rank(rank: u64, class: u64, bits: &mut Vec<u8>) {
    let width = (rank ^ class).ilog2();
    bits.extend((0..width).rev().map(|bit| (rank >> bit) as u8 & 1));
}

const LONGEST_COIN_BLOCK: usize = 60;

static BINOMIALS: [[u64; LONGEST_COIN_BLOCK + 1]; LONGEST_COIN_BLOCK + 1] = {
    let mut table = [[0; LONGEST_COIN_BLOCK + 1]; LONGEST_COIN_BLOCK + 1];
    let mut n = 0;
    while n <= LONGEST_COIN_BLOCK {
        table[n][0] = 1;
        let mut k = 1;
        while k <= n {
            table[n][k] = table[n - 1][k - 1] + table[n - 1][k];
            k += 1;
        }
        n += 1;
    }
    table
};

struct CoinRanking<const BLOCK: usize>;

impl<const BLOCK: usize> CoinExtractor for CoinRanking<BLOCK> {
    fn extract(&mut self, coins: &[u8], bits: &mut Vec<u8>) {
        const { assert!(2 <= BLOCK && BLOCK <= LONGEST_COIN_BLOCK) };
        for block in coins.chunks(BLOCK) {
            let mut ones = 0;
            let mut rank = 0;
            // From the right: before a 1 come all words that have a 0 there and the ones after it.
            for (row, &coin) in BINOMIALS.iter().zip(block.iter().rev()) {
                ones += usize::from(coin);
                rank += row[ones] * u64::from(coin);
            }
            push_rank(rank, BINOMIALS[block.len()][ones], bits);
        }
    }
}

struct SymbolRanking<const BLOCK: usize>;

impl<const BLOCK: usize> SymbolExtractor for SymbolRanking<BLOCK> {
    fn extract(&mut self, _: usize, codes: &[u8], bits: &mut Vec<u8>) {
        // No product below is over the factorial of 20.
        const { assert!(2 <= BLOCK && BLOCK <= 20) };
        for block in codes.chunks(BLOCK) {
            let mut counts = [0u64; 16];
            let mut rank = 0;
            let mut class = 1;
            let mut length = 0;
            // From the right, with the class of what stands right of here: both divisions are exact.
            for &code in block.iter().rev() {
                let (smaller, same) = counts.split_at_mut(usize::from(code));
                length += 1;
                same[0] += 1;
                rank += class * smaller.iter().sum::<u64>() / same[0];
                class = class * length / same[0];
            }
            push_rank(rank, class, bits);
        }
    }
}

struct Peres<const DEPTH: usize, Below> {
    below: Below,
    scratch: Vec<u8>,
}

impl<const DEPTH: usize, Below> Peres<DEPTH, Below> {
    fn over(below: Below) -> Self {
        Peres { below, scratch: Vec::new() }
    }
}

impl<const DEPTH: usize, Below: CoinExtractor> CoinExtractor for Peres<DEPTH, Below> {
    fn extract(&mut self, coins: &[u8], bits: &mut Vec<u8>) {
        // u and v take at most the length of their coins, and half as many coins are left for the next.
        if self.scratch.len() < 2 * coins.len() {
            self.scratch.resize(2 * coins.len(), 0);
        }
        peres(DEPTH, &mut self.below, coins, &mut self.scratch, bits);
    }
}

fn peres<Below: CoinExtractor>(
    depth: usize,
    below: &mut Below,
    coins: &[u8],
    scratch: &mut [u8],
    bits: &mut Vec<u8>,
) {
    if depth == 0 {
        return below.extract(coins, bits);
    }
    let pairs = coins.len() / 2;
    if pairs == 0 {
        return;
    }
    let (u, scratch) = scratch.split_at_mut(pairs);
    let (v, scratch) = scratch.split_at_mut(pairs);
    let start = bits.len();
    bits.resize(start + pairs, 0);
    let out = &mut bits[start..];
    let mut differing = 0;
    for ((i, pair), u) in coins.chunks_exact(2).enumerate().zip(u.iter_mut()) {
        let differ = pair[0] ^ pair[1];
        *u = differ;
        out[differing] = pair[0];
        v[i - differing] = pair[0];
        differing += usize::from(differ);
    }
    bits.truncate(start + differing);
    peres(depth - 1, below, u, scratch, bits);
    peres(depth - 1, below, &v[..pairs - differing], scratch, bits);
}

struct Split<Below> {
    below: Below,
    nodes: Vec<u8>,
}

impl<Below> Split<Below> {
    fn over(below: Below) -> Self {
        Split { below, nodes: Vec::new() }
    }
}

impl<Below: CoinExtractor> SymbolExtractor for Split<Below> {
    fn extract(&mut self, size: usize, codes: &[u8], bits: &mut Vec<u8>) {
        let width = width(size);
        if width == 1 {
            return self.below.extract(codes, bits);
        }
        let mut counts = [0; 16];
        for &code in codes {
            counts[usize::from(code)] += 1;
        }
        self.nodes.resize(codes.len(), 0);
        for level in 0..width {
            // The codes of a prefix stand next to each other in the counts.
            let codes_of_prefix = 1 << (width - level);
            let prefixes = 1 << level;
            let mut ends = [0; 16];
            let mut end = 0;
            for (next, counts) in ends.iter_mut().zip(counts.chunks(codes_of_prefix)).take(prefixes) {
                *next = end;
                end += counts.iter().sum::<usize>();
            }
            for &code in codes {
                let next = &mut ends[usize::from(code) >> (width - level)];
                self.nodes[*next] = code >> (width - level - 1) & 1;
                *next += 1;
            }
            let mut begin = 0;
            for &end in &ends[..prefixes] {
                self.below.extract(&self.nodes[begin..end], bits);
                begin = end;
            }
        }
    }
}

struct Blum<Below> {
    below: Below,
    exits: Vec<u8>,
}

impl<Below> Blum<Below> {
    fn over(below: Below) -> Self {
        Blum { below, exits: Vec::new() }
    }
}

impl<Below: SymbolExtractor> SymbolExtractor for Blum<Below> {
    fn extract(&mut self, size: usize, codes: &[u8], bits: &mut Vec<u8>) {
        let Some((&last, visits)) = codes.split_last() else { return };
        // Every lane has room for all exits.
        let room = visits.len();
        if self.exits.len() < size * room {
            self.exits.resize(size * room, 0);
        }
        let mut ends: [usize; 16] = std::array::from_fn(|state| state * room);
        for (&state, &exit) in visits.iter().zip(&codes[1..]) {
            let next = &mut ends[usize::from(state)];
            self.exits[*next] = exit;
            *next += 1;
        }
        for (state, &end) in ends[..size].iter().enumerate() {
            let begin = state * room;
            if begin < end {
                let kept = if state == usize::from(last) { end } else { end - 1 };
                self.below.extract(size, &self.exits[begin..kept], bits);
            }
        }
    }
}

/// The least number of bits that write every code of a size.
fn width(size: usize) -> usize {
    size.next_power_of_two().ilog2() as usize
}

fn tower(letter: u8) -> Option<Box<dyn SymbolExtractor>> {
    fn ranking() -> SymbolRanking<20> {
        SymbolRanking
    }
    fn deep() -> Split<Peres<12, NoBits>> {
        Split::over(Peres::over(NoBits))
    }
    fn mixed() -> Split<Peres<4, CoinRanking<60>>> {
        Split::over(Peres::over(CoinRanking))
    }
    fn ranked() -> Split<CoinRanking<60>> {
        Split::over(CoinRanking)
    }
    Some(match letter {
        b'v' => Box::new(Pairs),
        b'e' => Box::new(ranking()),
        b'p' => Box::new(deep()),
        b'q' => Box::new(mixed()),
        b'r' => Box::new(ranked()),
        b'V' => Box::new(Blum::over(Pairs)),
        b'E' => Box::new(Blum::over(ranking())),
        b'P' => Box::new(Blum::over(deep())),
        b'Q' => Box::new(Blum::over(mixed())),
        b'R' => Box::new(Blum::over(ranked())),
        _ => return None,
    })
}

// ---------------------------------------------------------------------------------------------------------------------
// Noise files
// ---------------------------------------------------------------------------------------------------------------------

const LONGEST_BODY: usize = 4_096;

struct Kind {
    letters: &'static [u8],
    codes: [u8; 256],
}

/// What the table of codes has for a letter that is not of the kind.
const STRAY: u8 = 255;

impl Kind {
    const fn of(letters: &'static [u8]) -> Kind {
        let mut codes = [STRAY; 256];
        let mut code = 0;
        while code < letters.len() {
            codes[letters[code] as usize] = code as u8;
            code += 1;
        }
        Kind { letters, codes }
    }

    fn size(&self) -> usize {
        self.letters.len()
    }
}

static COINS: Kind = Kind::of(b"HT");
static FACES: Kind = Kind::of(b"123456");
static LABELS: Kind = Kind::of(b"abcdefghijklmnop");

fn kind(letter: u8) -> Option<&'static Kind> {
    match letter {
        b'C' => Some(&COINS),
        b'D' => Some(&FACES),
        b'L' => Some(&LABELS),
        _ => None,
    }
}

struct Refusal {
    number: u32,
    place: usize,
}

struct Entry<'file> {
    kind_letter: u8,
    tower_letter: u8,
    kind: &'static Kind,
    body: &'file [u8],
}

impl Entry<'_> {
    fn codes(&self) -> impl Iterator<Item = u8> + '_ {
        self.body.iter().map(|&letter| self.kind.codes[usize::from(letter)])
    }
}

fn open(file: &[u8]) -> Result<(usize, Vec<Entry<'_>>), Refusal> {
    let refused = |number, place| Err(Refusal { number, place });
    let [entries, key_length, ..] = *file else { return refused(7, file.len()) };
    if !(1..=15).contains(&entries) {
        return refused(8, 0);
    }
    if !(1..=32).contains(&key_length) {
        return refused(9, 1);
    }
    let bodies = 2 + 4 * usize::from(entries);
    let Some(contents) = file.get(2..bodies) else { return refused(7, file.len()) };

    let mut found = Vec::with_capacity(usize::from(entries));
    let mut end = bodies;
    for (i, line) in contents.chunks_exact(4).enumerate() {
        let offset = 2 + 4 * i;
        let Some(kind) = kind(line[0]) else { return refused(10, offset) };
        if !b"vepqrVEPQR".contains(&line[1]) {
            return refused(11, offset + 1);
        }
        let length = usize::from(u16::from_be_bytes([line[2], line[3]]));
        if length > LONGEST_BODY {
            return refused(12, offset + 2);
        }
        let body = file.get(end..end + length).unwrap_or_default();
        found.push(Entry { kind_letter: line[0], tower_letter: line[1], kind, body });
        end += length;
    }
    if end != file.len() {
        return refused(13, end.min(file.len()));
    }
    let mut begin = bodies;
    for entry in &found {
        if let Some(at) = entry.codes().position(|code| code == STRAY) {
            return refused(14, begin + at);
        }
        begin += entry.body.len();
    }
    Ok((usize::from(key_length), found))
}

// ---------------------------------------------------------------------------------------------------------------------
// The well and the program
// ---------------------------------------------------------------------------------------------------------------------

#[derive(Default)]
struct Well {
    bits: Vec<u8>,
    first: usize,
    poured: usize,
    loaded: usize,
}

impl Well {
    fn held(&self) -> usize {
        self.bits.len() - self.first
    }

    /// Answers the yield and the lean.
    fn feed(&mut self, tower: &mut dyn SymbolExtractor, size: usize, codes: &[u8]) -> (usize, i64) {
        self.bits.drain(..self.first);
        self.first = 0;
        let before = self.bits.len();
        tower.extract(size, codes, &mut self.bits);
        let new = &self.bits[before..];
        let ones = new.iter().map(|&bit| i64::from(bit)).sum::<i64>();
        self.poured += new.len();
        (new.len(), 2 * ones - new.len() as i64)
    }

    fn draw(&mut self, key: &mut [u8]) -> bool {
        let Some(bits) = self.bits.get(self.first..self.first + 8 * key.len()) else { return false };
        for (byte, bits) in key.iter_mut().zip(bits.chunks_exact(8)) {
            *byte = bits.iter().fold(0, |byte, bit| byte << 1 | bit);
        }
        self.first += 8 * key.len();
        self.loaded += 8 * key.len();
        true
    }
}

/// The most bytes that are read, one more than the longest file has.
const READ: u64 = 61_503;

fn clean(file: &[u8], out: &mut impl Write) -> std::io::Result<()> {
    let (key_length, entries) = match open(file) {
        Ok(opened) => opened,
        Err(Refusal { number, place }) => return writeln!(out, "refused {number} file {place}"),
    };
    let mut well = Well::default();
    let mut key = [0; 32];
    let key = &mut key[..key_length];
    let mut codes = Vec::with_capacity(LONGEST_BODY);
    for (i, entry) in entries.iter().enumerate() {
        codes.clear();
        codes.extend(entry.codes());
        let mut tower = tower(entry.tower_letter).expect("judged when the file was opened");
        let (given, lean) = well.feed(&mut *tower, entry.kind.size(), &codes);
        let (kind, letter) = (char::from(entry.kind_letter), char::from(entry.tower_letter));
        writeln!(out, "{} {kind} {letter} {} {given} {lean}", i + 1, codes.len())?;
        while well.draw(key) {
            out.write_all(b"key ")?;
            for byte in &*key {
                write!(out, "{byte:02x}")?;
            }
            out.write_all(b"\n")?;
        }
    }
    writeln!(out, "poured {} loaded {} held {}", well.poured, well.loaded, well.held())
}

// ---------------------------------------------------------------------------------------------------------------------
// Measuring
// ---------------------------------------------------------------------------------------------------------------------

fn recording(size: usize, length: usize) -> Vec<u8> {
    let mut state: u64 = 1;
    let mut next = || {
        state = state.wrapping_add(0x9E37_79B9_7F4A_7C15);
        let mut z = state;
        z = (z ^ (z >> 30)).wrapping_mul(0xBF58_476D_1CE4_E5B9);
        z = (z ^ (z >> 27)).wrapping_mul(0x94D0_49BB_1331_11EB);
        z ^ (z >> 31)
    };
    let size = size as u64;
    (0..length)
        .map(|_| {
            let number = next();
            ((number >> 32) % size).min((number & 0xFFFF_FFFF) % size) as u8
        })
        .collect()
}

fn bench(tower: &mut dyn SymbolExtractor, size: usize, codes: &[u8], repeat: usize) -> (u128, u128, usize) {
    let mut bits = Vec::with_capacity(width(size) * codes.len());
    let mut times: Vec<u128> = (0..repeat)
        .map(|_| {
            let start = Instant::now();
            bits.clear();
            let codes = black_box(codes);
            // An extractor judges the codes before it takes them.
            let most = codes.iter().fold(0, |most, &code| most.max(code));
            assert!(usize::from(most) < size);
            tower.extract(black_box(size), codes, &mut bits);
            black_box(&bits);
            start.elapsed().as_nanos()
        })
        .collect();
    times.sort_unstable();
    (times[0], times[repeat / 2], bits.len())
}

fn one_letter(word: &str) -> u8 {
    match word.as_bytes() {
        &[letter] => letter,
        _ => usage(),
    }
}

fn usage() -> ! {
    eprintln!("usage: fast < FILE, or fast bench TOWER KIND N REPEAT, or fast recording KIND N (N at most 4096)");
    std::process::exit(2);
}

fn main() -> std::io::Result<()> {
    let arguments: Vec<String> = std::env::args().skip(1).collect();
    let words: Vec<&str> = arguments.iter().map(String::as_str).collect();
    let length = |word: &str| word.parse().ok().filter(|&n| n <= LONGEST_BODY).unwrap_or_else(|| usage());
    let mut out = std::io::stdout().lock();
    match words[..] {
        [] => {
            let mut file = Vec::with_capacity(READ as usize);
            std::io::stdin().lock().take(READ).read_to_end(&mut file)?;
            let mut text = Vec::new();
            clean(&file, &mut text)?;
            out.write_all(&text)
        }
        ["bench", tower_letter, kind_letter, n, repeat] => {
            let mut tower = tower(one_letter(tower_letter)).unwrap_or_else(|| usage());
            let size = kind(one_letter(kind_letter)).unwrap_or_else(|| usage()).size();
            let repeat = repeat.parse().ok().filter(|&repeat: &usize| repeat > 0).unwrap_or_else(|| usage());
            let codes = recording(size, length(n));
            let (least, median, given) = bench(&mut *tower, size, &codes, repeat);
            write!(out, "tower {tower_letter} kind {kind_letter} symbols {n} runs {repeat} ")?;
            writeln!(out, "min {least} ns median {median} ns yield {given}")
        }
        ["recording", kind_letter, n] => {
            let kind = kind(one_letter(kind_letter)).unwrap_or_else(|| usage());
            let codes = recording(kind.size(), length(n));
            let body: Vec<u8> = codes.into_iter().map(|code| kind.letters[usize::from(code)]).collect();
            out.write_all(&body)
        }
        _ => usage(),
    }
}
