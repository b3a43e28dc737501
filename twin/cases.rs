// Makes noise files, good and damaged, for comparing the cleaning program with its twin. A file's bytes depend on the
// seed and on its place among the files, and on nothing else.
//
//   cases SEED COUNT DIR               writes COUNT files into DIR, named 0000.noise and so on
//   cases pack SEED COUNT OUT.bin      writes COUNT small files into one: each as two bytes of length, high byte first,
//                                      and then its bytes

use std::io::Write;

/// A small generator of numbers (splitmix64).
struct Numbers {
    state: u64,
}

impl Numbers {
    fn new(seed: u64, number: u64) -> Numbers {
        let mut numbers = Numbers { state: seed };
        numbers.state = numbers.next() ^ number.wrapping_mul(0xD1B5_4A32_D192_ED03);
        numbers.next();
        numbers
    }

    fn next(&mut self) -> u64 {
        self.state = self.state.wrapping_add(0x9E37_79B9_7F4A_7C15);
        let mut z = self.state;
        z = (z ^ (z >> 30)).wrapping_mul(0xBF58_476D_1CE4_E5B9);
        z = (z ^ (z >> 27)).wrapping_mul(0x94D0_49BB_1331_11EB);
        z ^ (z >> 31)
    }

    fn below(&mut self, bound: usize) -> usize {
        (self.next() % bound as u64) as usize
    }

    /// From low to high, both included.
    fn from(&mut self, low: usize, high: usize) -> usize {
        low + self.below(high - low + 1)
    }

    fn one_of<T: Copy>(&mut self, choices: &[T]) -> T {
        choices[self.below(choices.len())]
    }

    fn chance(&mut self, percent: usize) -> bool {
        self.below(100) < percent
    }
}

const KINDS: [u8; 3] = *b"CDL";
const TOWERS: [u8; 10] = *b"vepqrVEPQR";

fn letters(kind: u8) -> &'static [u8] {
    match kind {
        b'C' => b"HT",
        b'D' => b"123456",
        b'L' => b"abcdefghijklmnop",
        _ => unreachable!(),
    }
}

/// Every length that may be at an edge of a rule: 0 to 3, and those about block lengths, powers of two and the limit.
fn lengths(most: usize) -> Vec<usize> {
    let mut lengths = vec![0, 1, 2, 3, 19, 20, 21, 39, 40, 41, 59, 60, 61, 119, 120, 121, 4_095, 4_096];
    for k in 2..12 {
        lengths.extend([(1 << k) - 1, 1 << k, (1 << k) + 1]);
    }
    lengths.sort();
    lengths.dedup();
    lengths.retain(|&length| length <= most);
    lengths
}

#[derive(Clone, Copy)]
enum Source {
    Fair,
    Biased,
    Constant,
    Alternating,
    Cycling,
    Sticky,
    Markov,
    NearlyConstant,
    FewLetters,
    Sorted,
}

const SOURCES: [Source; 10] = [
    Source::Fair,
    Source::Biased,
    Source::Markov,
    Source::Sticky,
    Source::Constant,
    Source::Biased,
    Source::NearlyConstant,
    Source::Alternating,
    Source::FewLetters,
    Source::Cycling,
];

/// The codes of a recording from a source.
fn codes(source: Source, size: usize, length: usize, numbers: &mut Numbers) -> Vec<usize> {
    match source {
        Source::Fair => (0..length).map(|_| numbers.below(size)).collect(),
        Source::Biased => {
            let weights: Vec<usize> = (0..size).map(|_| numbers.from(1, 40)).collect();
            (0..length).map(|_| weighted(&weights, numbers)).collect()
        }
        Source::Constant => vec![numbers.below(size); length],
        Source::Alternating => {
            let pair = [numbers.below(size), numbers.below(size)];
            (0..length).map(|i| pair[i % 2]).collect()
        }
        Source::Cycling => {
            let start = numbers.below(size);
            let step = numbers.from(1, size - 1);
            (0..length).map(|i| (start + i * step) % size).collect()
        }
        Source::Sticky => {
            let stays = numbers.from(50, 97);
            let mut code = numbers.below(size);
            (0..length)
                .map(|_| {
                    if !numbers.chance(stays) {
                        code = numbers.below(size);
                    }
                    code
                })
                .collect()
        }
        Source::Markov => {
            let rows: Vec<Vec<usize>> =
                (0..size).map(|_| (0..size).map(|_| numbers.below(30) * numbers.below(2) + 1).collect()).collect();
            let mut code = numbers.below(size);
            (0..length)
                .map(|_| {
                    code = weighted(&rows[code], numbers);
                    code
                })
                .collect()
        }
        Source::NearlyConstant => {
            let usual = numbers.below(size);
            (0..length).map(|_| if numbers.chance(3) { numbers.below(size) } else { usual }).collect()
        }
        Source::FewLetters => {
            let few: Vec<usize> = (0..3).map(|_| numbers.below(size)).collect();
            (0..length).map(|_| numbers.one_of(&few)).collect()
        }
        Source::Sorted => {
            let mut codes: Vec<usize> = (0..length).map(|_| numbers.below(size)).collect();
            codes.sort();
            if numbers.chance(50) {
                codes.reverse();
            }
            codes
        }
    }
}

fn weighted(weights: &[usize], numbers: &mut Numbers) -> usize {
    let mut left = numbers.below(weights.iter().sum());
    for (code, &weight) in weights.iter().enumerate() {
        if left < weight {
            return code;
        }
        left -= weight;
    }
    unreachable!()
}

#[derive(Clone)]
struct Entry {
    kind: u8,
    tower: u8,
    body: Vec<u8>,
}

fn entry(kind: u8, tower: u8, length: usize, numbers: &mut Numbers) -> Entry {
    let source = if numbers.chance(5) { Source::Sorted } else { numbers.one_of(&SOURCES) };
    entry_from(source, kind, tower, length, numbers)
}

fn entry_from(source: Source, kind: u8, tower: u8, length: usize, numbers: &mut Numbers) -> Entry {
    let alphabet = letters(kind);
    let body = codes(source, alphabet.len(), length, numbers).into_iter().map(|code| alphabet[code]).collect();
    Entry { kind, tower, body }
}

fn any_entry(most: usize, numbers: &mut Numbers) -> Entry {
    let kind = numbers.one_of(&KINDS);
    let tower = numbers.one_of(&TOWERS);
    let length = if numbers.chance(40) { numbers.one_of(&lengths(most)) } else { numbers.from(0, most) };
    entry(kind, tower, length, numbers)
}

fn file(key_length: usize, entries: &[Entry]) -> Vec<u8> {
    let mut file = vec![entries.len() as u8, key_length as u8];
    for entry in entries {
        file.extend([entry.kind, entry.tower]);
        file.extend((entry.body.len() as u16).to_be_bytes());
    }
    for entry in entries {
        file.extend(&entry.body);
    }
    file
}

// ---------------------------------------------------------------------------------------------------------------------
// Good files
// ---------------------------------------------------------------------------------------------------------------------

/// One entry: with the turn, every kind and tower and every length at an edge come round, in all combinations.
fn one_entry(turn: usize, most: usize, numbers: &mut Numbers) -> Vec<u8> {
    let lengths = lengths(most);
    let tower = TOWERS[turn % 10];
    let kind = KINDS[turn / 10 % 3];
    // 30 combinations to a round; each has its own place in the lengths, and moves on by one every round.
    let length = lengths[(turn / 30 + turn * 7) % lengths.len()];
    file(numbers.from(1, 32), &[entry(kind, tower, length, numbers)])
}

/// One entry of any length between two.
fn one_entry_of_any_length(turn: usize, least: usize, most: usize, numbers: &mut Numbers) -> Vec<u8> {
    let tower = TOWERS[turn % 10];
    let kind = KINDS[turn / 10 % 3];
    let length = numbers.from(least, most);
    file(numbers.from(1, 32), &[entry(kind, tower, length, numbers)])
}

/// Some entries, so that bits of one are dealt with those of the next.
fn some_entries(turn: usize, most: usize, numbers: &mut Numbers) -> Vec<u8> {
    let number = 1 + turn % 15;
    let entries: Vec<Entry> = (0..number).map(|_| any_entry(most / number, numbers)).collect();
    let key_length = if numbers.chance(40) { numbers.from(1, 4) } else { numbers.from(1, 32) };
    file(key_length, &entries)
}

/// Every tower on the same body, one after the other.
fn one_body(turn: usize, most: usize, numbers: &mut Numbers) -> Vec<u8> {
    let kind = KINDS[turn % 3];
    let source = SOURCES[turn / 3 % SOURCES.len()];
    let length = numbers.from(0, most / 10);
    let body = entry_from(source, kind, b'v', length, numbers).body;
    let entries: Vec<Entry> = TOWERS.iter().map(|&tower| Entry { kind, tower, body: body.clone() }).collect();
    file(numbers.from(1, 32), &entries)
}

/// Runs of two letters in turn, where the run and the whole are powers of two, the longest first: all pairs agree down
/// to the depth of the run, and so the deepest Peres layers have something to give. Each tower cleans the same body.
fn runs(turn: usize, most: u32, towers: &[u8], numbers: &mut Numbers) -> Vec<u8> {
    let powers: Vec<(u32, u32)> = (1..=most).rev().flat_map(|k| (0..k).rev().map(move |j| (k, j))).collect();
    let (k, j) = powers[turn % powers.len()];
    let kind = KINDS[turn % 3];
    let first = numbers.one_of(letters(kind));
    let second = loop {
        let letter = numbers.one_of(letters(kind));
        if letter != first {
            break letter;
        }
    };
    let body: Vec<u8> = (0..1 << k).map(|i| if i >> j & 1 == 0 { first } else { second }).collect();
    let entries: Vec<Entry> = towers.iter().map(|&tower| Entry { kind, tower, body: body.clone() }).collect();
    file(numbers.from(1, 4), &entries)
}

/// The longest files there are.
fn longest(turn: usize, numbers: &mut Numbers) -> Vec<u8> {
    let entries: Vec<Entry> = (0..15)
        .map(|i| {
            let kind = if turn % 2 == 0 { b'L' } else { KINDS[(turn + i) % 3] };
            // The longest yields come of fair labels: the well is nearest to full.
            let source = if turn % 2 == 0 { Source::Fair } else { numbers.one_of(&SOURCES) };
            entry_from(source, kind, TOWERS[(turn + i) % 10], 4_096, numbers)
        })
        .collect();
    let key_length = if turn % 2 == 0 { 32 } else { numbers.from(1, 32) };
    file(key_length, &entries)
}

// ---------------------------------------------------------------------------------------------------------------------
// Damage
// ---------------------------------------------------------------------------------------------------------------------

/// The number of ways in which `damage` does harm.
const WAYS: usize = 14;

/// Those of them that cut the contents.
const CUTS: [usize; 2] = [2, 13];

/// The first, a middle or the last of so many, or any.
fn place(turn: usize, number: usize, numbers: &mut Numbers) -> usize {
    match turn % 4 {
        0 => 0,
        1 => number / 2,
        2 => number - 1,
        _ => numbers.below(number),
    }
}

/// Entries of which none is empty, so that each body has a letter to damage.
fn ground(most: usize, numbers: &mut Numbers) -> Vec<Entry> {
    let number = match numbers.below(7) {
        0 => 1,
        1 => 2,
        2 | 3 => 3,
        4 => 15,
        5 => numbers.from(1, 14),
        _ => numbers.from(4, 8),
    };
    let longest = (most / number).max(2);
    (0..number)
        .map(|_| {
            let length = numbers.from(1, longest);
            entry(numbers.one_of(&KINDS), numbers.one_of(&TOWERS), length, numbers)
        })
        .collect()
}

fn another_kind(kind: u8, numbers: &mut Numbers) -> u8 {
    loop {
        let other = numbers.one_of(&KINDS);
        if other != kind {
            return other;
        }
    }
}

fn not_among(letters: &[u8], numbers: &mut Numbers) -> u8 {
    loop {
        let byte = numbers.below(256) as u8;
        if !letters.contains(&byte) {
            return byte;
        }
    }
}

/// Harms a file in one way. The turn chooses the form of the harm and its place. The entries are those that the file
/// was made of: earlier harm may have made it shorter, and then what is no more there is left alone.
fn damage(way: usize, turn: usize, file: &mut Vec<u8>, entries: &[Entry], numbers: &mut Numbers) {
    let number = entries.len();
    let contents_end = 2 + 4 * number;
    let harmed = place(turn / 7, number, numbers);
    let kind_offset = 2 + 4 * harmed;
    let mut set = |offset: usize, byte: u8| {
        if offset < file.len() {
            file[offset] = byte;
        }
    };
    match way {
        // The number of entries
        0 => {
            let wrong = match turn % 7 {
                0 => 0,
                1 => 16,
                2 => 255,
                3 => numbers.from(16, 255),
                4 => 48 + number,
                5 => 128 + number,
                _ => 17,
            };
            set(0, wrong as u8);
        }
        // The key length
        1 => {
            let wrong = match turn % 5 {
                0 => 0,
                1 => 33,
                2 => 255,
                3 => 128,
                _ => numbers.from(33, 255),
            };
            set(1, wrong as u8);
        }
        // Contents cut, at each of their bytes in turn
        2 => {
            let end = 2 + turn % (contents_end - 2);
            file.truncate(end);
        }
        // A kind letter
        3 => {
            let own = entries[harmed].kind;
            let wrong = match turn % 7 {
                0 => own.to_ascii_lowercase(),
                1 => entries[harmed].tower,
                2 => 0,
                3 => own - 1,
                4 => own ^ 0x80,
                5 => 255,
                _ => not_among(&KINDS, numbers),
            };
            set(kind_offset, wrong);
        }
        // A tower letter
        4 => {
            let own = entries[harmed].tower;
            let wrong = match turn % 7 {
                0 => entries[harmed].kind,
                1 => numbers.one_of(b"uwodfsUWODFSnN"),
                2 => 0,
                3 => own ^ 0x80,
                4 => 255,
                5 => own & 0x1f,
                _ => not_among(&TOWERS, numbers),
            };
            set(kind_offset + 1, wrong);
        }
        // A length over the limit
        5 => {
            let wrong = match turn % 5 {
                0 => 4_097,
                1 => 65_535,
                2 => 4_352,
                3 => 32_768 + entries[harmed].body.len(),
                _ => numbers.from(4_097, 65_535),
            };
            set(kind_offset + 2, (wrong / 256) as u8);
            set(kind_offset + 3, (wrong % 256) as u8);
        }
        // Another length within the limit: the bodies end elsewhere than the file
        6 => {
            let own = entries[harmed].body.len();
            let other = match turn % 5 {
                0 => own - 1,
                1 => own + 1,
                2 => 0,
                3 => 4_096,
                _ => numbers.from(0, 4_096),
            };
            set(kind_offset + 2, (other / 256) as u8);
            set(kind_offset + 3, (other % 256) as u8);
        }
        // A file too short in its bodies
        7 => {
            let short = match turn % 4 {
                0 => 1,
                1 => 2,
                2 => file.len().saturating_sub(contents_end),
                _ => 1 + numbers.below(file.len().saturating_sub(contents_end).max(1)),
            };
            let end = file.len().saturating_sub(short);
            file.truncate(end);
        }
        // A file too long
        8 => {
            let more = match turn % 4 {
                0 | 1 => 1,
                2 => 2,
                _ => numbers.from(1, 60),
            };
            for _ in 0..more {
                let byte = if turn % 2 == 0 { numbers.one_of(b"HT1a\n") } else { numbers.below(256) as u8 };
                file.push(byte);
            }
        }
        // A stray letter, at the first, middle or last place of a body
        9 => {
            let begin: usize = contents_end + entries[..harmed].iter().map(|entry| entry.body.len()).sum::<usize>();
            let body = &entries[harmed].body;
            let at = place(turn, body.len(), numbers);
            let alphabet = letters(entries[harmed].kind);
            let wrong = match numbers.below(9) {
                0 => 0,
                1 => b'\n',
                2 => 255,
                3 => body[at] ^ 0x20,
                4 => body[at] ^ 0x80,
                5 => alphabet[0] - 1,
                6 => alphabet[alphabet.len() - 1] + 1,
                7 => b'I',
                _ => not_among(alphabet, numbers),
            };
            set(begin + at, wrong);
        }
        // Letters of another kind
        10 => {
            let begin: usize = contents_end + entries[..harmed].iter().map(|entry| entry.body.len()).sum::<usize>();
            let length = entries[harmed].body.len();
            let other = letters(another_kind(entries[harmed].kind, numbers));
            let from = place(turn, length, numbers);
            for at in from..length {
                set(begin + at, numbers.one_of(other));
            }
        }
        // Another kind for the same body
        11 => {
            set(kind_offset, another_kind(entries[harmed].kind, numbers));
        }
        // Fewer or more entries than the contents have
        12 => {
            let other = if turn % 2 == 0 { number - 1 } else { number + 1 };
            set(0, other as u8);
        }
        // Under 2 bytes
        13 => {
            let end = turn % 2;
            file.truncate(end);
        }
        _ => unreachable!(),
    }
}

/// A file harmed in one way.
fn one_fault(turn: usize, most: usize, numbers: &mut Numbers) -> Vec<u8> {
    let (way, round) = (turn % WAYS, turn / WAYS);
    let entries = ground(most, numbers);
    let mut file = file(numbers.from(1, 32), &entries);
    damage(way, round, &mut file, &entries, numbers);
    file
}

/// A file harmed in 2 to 5 ways, so that the order of judging decides.
fn some_faults(turn: usize, most: usize, numbers: &mut Numbers) -> Vec<u8> {
    let entries = ground(most, numbers);
    let mut file = file(numbers.from(1, 32), &entries);
    let number = 2 + turn % 4;
    // The ways that cut the contents are rare after the first, since they hide most others.
    let mut ways = vec![turn / 4 % WAYS];
    while ways.len() < number {
        let way = numbers.below(WAYS);
        if !CUTS.contains(&way) || numbers.chance(20) {
            ways.push(way);
        }
    }
    // Cuts come last, so that the file is short whatever else was harmed.
    ways.sort_by_key(|way| CUTS.contains(way));
    for way in ways {
        let form = numbers.below(1_000);
        damage(way, form, &mut file, &entries, numbers);
    }
    file
}

/// The same way twice, at two entries or two letters: the first one is answered.
fn a_fault_twice(turn: usize, most: usize, numbers: &mut Numbers) -> Vec<u8> {
    let entries = ground(most, numbers);
    let mut file = file(numbers.from(1, 32), &entries);
    let way = [3, 4, 5, 9, 10][turn % 5];
    for _ in 0..2 {
        let form = numbers.below(1_000);
        damage(way, form, &mut file, &entries, numbers);
    }
    file
}

/// A file of 15 entries cut before one of its first 63 bytes, each in turn: the contents are 62 bytes.
fn cut_contents(turn: usize, numbers: &mut Numbers) -> Vec<u8> {
    let entries: Vec<Entry> = (0..15).map(|_| any_entry(8, numbers)).collect();
    let mut file = file(numbers.from(1, 32), &entries);
    file.truncate(turn % 63);
    file
}

/// Bytes at random, or after contents that are nearly right.
fn rubbish(turn: usize, most: usize, numbers: &mut Numbers) -> Vec<u8> {
    let length = numbers.from(0, most);
    let mut file: Vec<u8> = (0..length).map(|_| numbers.below(256) as u8).collect();
    if turn % 2 == 0 {
        let mut set = |offset: usize, byte: u8| {
            if offset < file.len() {
                file[offset] = byte;
            }
        };
        let number = numbers.from(1, 15);
        set(0, number as u8);
        set(1, numbers.from(1, 32) as u8);
        for i in 0..number {
            set(2 + 4 * i, numbers.one_of(b"CDLCDLCDLCDLc"));
            set(3 + 4 * i, numbers.one_of(b"vepqrVEPQRvepqrVEPQRx"));
            set(4 + 4 * i, numbers.one_of(&[0, 0, 0, 0, 1, 16, 17]));
        }
    }
    file
}

/// Files about the most that is read.
fn about_the_most(turn: usize, numbers: &mut Numbers) -> Vec<u8> {
    let mut entries: Vec<Entry> =
        (0..15).map(|_| entry(numbers.one_of(&KINDS), numbers.one_of(b"vV"), 4_096, numbers)).collect();
    match turn % 9 {
        // One byte more than the longest file has
        0 => {
            let mut file = file(1, &entries);
            file.push(b'H');
            file
        }
        // Longer than what is read
        1 => {
            let mut file = file(1, &entries);
            file.extend(b"HH");
            file
        }
        2 => {
            let mut file = file(32, &entries);
            file.extend(vec![b'a'; 8_498]);
            file
        }
        // The longest, one byte short
        3 => {
            let mut file = file(1, &entries);
            file.pop();
            file
        }
        // A shorter one that is filled up to what is read, and beyond
        4 | 5 => {
            entries.truncate(3);
            let mut file = file(1, &entries);
            file.resize(if turn % 9 == 4 { 61_503 } else { 70_000 }, b'H');
            file
        }
        // The last letter of the longest
        6 => {
            let mut file = file(1, &entries);
            *file.last_mut().unwrap() = b'?';
            file
        }
        // A length of 4,097 in the last entry, with the body to match: 61,503 bytes
        7 => {
            let more = entries[14].body[0];
            entries[14].body.push(more);
            file(1, &entries)
        }
        // A stray letter in the middle of the longest, and it is too long
        _ => {
            let mut file = file(1, &entries);
            file[30_000] = b'?';
            file.extend(b"HHH");
            file
        }
    }
}

// ---------------------------------------------------------------------------------------------------------------------
// The mix
// ---------------------------------------------------------------------------------------------------------------------

/// File number i of a seed. Two in five are good.
fn case(seed: u64, i: usize) -> Vec<u8> {
    let mut numbers = Numbers::new(seed, i as u64);
    let numbers = &mut numbers;
    if i % 250 == 249 {
        return longest(i / 250, numbers);
    }
    if i % 100 == 99 {
        return about_the_most(i / 100, numbers);
    }
    let turn = i / 20;
    // In 3,000 files 20 of the 47 lengths come round for each kind and tower; the next seed goes on from there.
    let first = 600 * (seed % 47) as usize;
    match i % 20 {
        0..=3 => one_entry(first + 4 * turn + i % 20, 4_096, numbers),
        4 => one_entry_of_any_length(turn, 0, 400, numbers),
        5 => some_entries(2 * turn, 600, numbers),
        6 => some_entries(2 * turn + 1, 3_000, numbers),
        7 => one_body(turn, 2_000, numbers),
        8..=13 => one_fault(6 * turn + i % 20 - 8, if turn % 5 == 0 { 2_000 } else { 100 }, numbers),
        14..=16 => some_faults(3 * turn + i % 20 - 14, 100, numbers),
        17 => a_fault_twice(turn, 100, numbers),
        18 if turn % 2 == 0 => runs(turn / 2, 12, &[b'p', TOWERS[turn / 2 % 10]], numbers),
        18 => a_fault_twice(turn / 2, 100, numbers),
        _ if turn % 2 == 0 => cut_contents(turn / 2, numbers),
        _ => rubbish(turn / 2, 200, numbers),
    }
}

/// Small file number i of a pack: at most 299 bytes.
fn small_case(seed: u64, i: usize) -> Vec<u8> {
    let mut numbers = Numbers::new(seed, i as u64);
    let numbers = &mut numbers;
    let turn = i / 10;
    let file = match i % 10 {
        0..=2 => one_entry(3 * turn + i % 10, 257, numbers),
        3 => one_entry_of_any_length(turn, 100, 290, numbers),
        4 => some_entries(turn, 230, numbers),
        5..=7 => one_fault(3 * turn + i % 10 - 5, 30, numbers),
        8 => some_faults(turn, 30, numbers),
        _ if turn % 3 == 0 => runs(turn / 3, 8, b"p", numbers),
        _ if turn % 3 == 1 => rubbish(turn / 3, 70, numbers),
        _ => a_fault_twice(turn / 3, 30, numbers),
    };
    assert!(file.len() < 300);
    file
}

fn main() {
    let arguments: Vec<String> = std::env::args().skip(1).collect();
    let words: Vec<&str> = arguments.iter().map(String::as_str).collect();
    let number = |word: &str| word.parse::<u64>().expect("SEED and COUNT are whole numbers");
    match words[..] {
        ["pack", seed, count, out] => {
            let mut pack = Vec::new();
            for i in 0..number(count) as usize {
                let file = small_case(number(seed), i);
                pack.extend((file.len() as u16).to_be_bytes());
                pack.extend(file);
            }
            std::fs::write(out, pack).expect("the pack can be written");
        }
        [seed, count, directory] => {
            for i in 0..number(count) as usize {
                let path = format!("{directory}/{i:04}.noise");
                std::fs::write(path, case(number(seed), i)).expect("the file can be written");
            }
        }
        _ => {
            let usage = "usage: cases SEED COUNT DIR, or cases pack SEED COUNT OUT.bin\n";
            std::io::stderr().write_all(usage.as_bytes()).expect("standard error can be written");
            std::process::exit(2);
        }
    }
}
