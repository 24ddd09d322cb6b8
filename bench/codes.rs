//! The four codes in plain Rust, written from the scope alone: an independent second implementation to compare with. It mends in three ways. Two
//! project the word and search from the parities and the syndrome: one walks over the columns, the other has a table for each byte of a word. The
//! third searches through all codewords. Messages, words and marks are taken to have no bit above their size.

use std::array::from_fn;
use std::sync::LazyLock;

/// A check matrix by its rows, with the free columns, counted from 0, and the others: in row order, these are the columns of the identity matrix.
struct Matrix {
    rows: [&'static [u8]; 4],
    free: &'static [usize],
    bound: [usize; 4],
}

const NINE: Matrix = Matrix {
    rows: [
        &[1, 0, 0, 0, 1, 1, 3, 0, 1],
        &[0, 1, 0, 0, 1, 0, 2, 3, 1],
        &[0, 0, 1, 0, 2, 3, 1, 2, 1],
        &[0, 0, 0, 1, 1, 3, 0, 1, 3],
    ],
    free: &[4, 5, 6, 7, 8],
    bound: [0, 1, 2, 3],
};

const TEN: Matrix = Matrix {
    rows: [
        &[1, 1, 1, 1, 0, 0, 0, 0, 0, 0],
        &[0, 0, 0, 0, 1, 1, 1, 1, 0, 0],
        &[3, 2, 1, 0, 3, 2, 1, 0, 1, 0],
        &[2, 3, 1, 0, 2, 3, 1, 0, 0, 1],
    ],
    free: &[0, 1, 2, 4, 5, 6],
    bound: [3, 7, 8, 9],
};

/// The most columns and bytes that a word has.
const COLUMNS: usize = 10;
const BYTES: usize = 5;

/// The product of two symbols: 2·2 = 3, 2·3 = 1, 3·3 = 2.
fn times(a: u8, b: u8) -> u8 {
    const PRODUCTS: [[u8; 4]; 4] = [[0, 0, 0, 0], [0, 1, 2, 3], [0, 2, 3, 1], [0, 3, 1, 2]];
    PRODUCTS[a as usize][b as usize]
}

/// A column's value: the sum of its rows' symbols.
fn value(column: u8) -> u8 {
    ((column >> 1 ^ column) & 1) << 1 | (column >> 2 ^ column) & 1
}

fn parity(column: u8) -> u8 {
    column.count_ones() as u8 & 1
}

fn top(column: u8) -> u8 {
    column >> 3
}

/// The column with a parity, value and top bit.
fn column_with(parity: u8, value: u8, top: u8) -> u8 {
    let (high, low) = (value >> 1, value & 1);
    let d = parity ^ top ^ high ^ low;
    top << 3 | (low ^ d) << 2 | (high ^ d) << 1 | d
}

/// The column whose only one is in this row.
fn row(r: u8) -> u8 {
    8 >> r
}

/// What a walk over a word collects. Each is a sum over the columns, and so over the bytes.
struct Projection {
    /// Packed in base 4, first row highest.
    syndrome: u8,
    /// Bit c is the parity of column c, counted from 0.
    parities: u32,
    /// The top row's parity.
    top: u8,
}

impl Projection {
    fn pack(&self) -> u32 {
        self.parities << 16 | (self.top as u32) << 8 | self.syndrome as u32
    }

    fn unpack(packed: u32) -> Projection {
        Projection { syndrome: packed as u8, parities: packed >> 16, top: (packed >> 8) as u8 }
    }
}

/// For each byte of a word, lowest first, and each value of it: what a word of this byte alone gives.
type ByteTables = [[u32; 256]; BYTES];

fn byte_tables(of_word: impl Fn(u64) -> u32) -> ByteTables {
    from_fn(|i| from_fn(|byte| of_word((byte as u64) << (8 * i))))
}

fn sum_over_bytes(tables: &ByteTables, word: u64) -> u32 {
    let bytes = word.to_le_bytes();
    (0..BYTES).fold(0, |sum, i| sum ^ tables[i][bytes[i] as usize])
}

/// What mending answers: codeword, message, wrong, marks, marked wrong.
pub type Correction = [u64; 5];

/// A way to mend a word under marks.
pub type Mend = fn(&Code, u64, u64) -> Option<Correction>;

/// A code, with its tables.
pub struct Code {
    pub number: u64,
    columns: usize,
    /// Whether the top row's parity is that of the columns (O), and not 0 (E).
    rule_o: bool,
    free: &'static [usize],
    bound: [usize; 4],
    /// Each column of the matrix times each symbol, packed in base 4, first row highest.
    scaled: [[u8; 4]; COLUMNS],
    /// By packed syndrome: 4 times the column (counted from 1) plus the scale if the syndrome is that scale times that column, otherwise 0.
    entries: [u8; 256],
    projections: ByteTables,
    messages: ByteTables,
}

/// The codes 1 to 4. Their tables are made once.
pub static CODES: LazyLock<[Code; 4]> = LazyLock::new(|| [1, 2, 3, 4].map(Code::new));

impl Code {
    fn new(number: u64) -> Code {
        let Matrix { rows, free, bound } = if number <= 2 { NINE } else { TEN };
        let columns = rows[0].len();
        let mut scaled = [[0; 4]; COLUMNS];
        let mut entries = [0; 256];
        for c in 0..columns {
            for scale in 1..4 {
                let packed = rows.iter().fold(0, |s, row| 4 * s + times(scale, row[c]));
                scaled[c][scale as usize] = packed;
                entries[packed as usize] = 4 * (c as u8 + 1) + scale;
            }
        }
        let zeros = [[0; 256]; BYTES];
        let mut code = Code { number, columns, rule_o: number % 2 == 1, free, bound, scaled, entries, projections: zeros, messages: zeros };
        code.projections = byte_tables(|word| code.project(word).pack());
        code.messages = byte_tables(|word| code.message(word) as u32);
        code
    }

    pub fn width(&self) -> u32 {
        4 * self.columns as u32
    }

    pub fn message_bits(&self) -> u32 {
        (1 + 2 * self.free.len() + self.columns - 1) as u32
    }

    /// How many steps there are: a message is a step and the twelve bits of a reading.
    pub fn steps(&self) -> u64 {
        1 << (self.message_bits() - 12)
    }

    /// The place of a column in a word: that of its lowest bit.
    fn place(&self, c: usize) -> usize {
        4 * (self.columns - 1 - c)
    }

    fn column(&self, word: u64, c: usize) -> u8 {
        (word >> self.place(c) & 15) as u8
    }

    /// The word that has this column, and zeros in all others.
    fn alone(&self, c: usize, column: u8) -> u64 {
        (column as u64) << self.place(c)
    }

    fn top_parity(&self, parity: u8) -> u8 {
        if self.rule_o { parity } else { 0 }
    }

    /// The parities of a word whose columns are all odd.
    fn all_odd(&self) -> u32 {
        (1 << self.columns) - 1
    }

    /// One walk over ten columns, the last of which is zero in a word of nine: a loop of a constant number of rounds is quicker.
    fn project(&self, word: u64) -> Projection {
        let aligned = word << (4 * (COLUMNS - self.columns));
        let columns: [u8; COLUMNS] = from_fn(|c| (aligned >> (4 * (COLUMNS - 1 - c)) & 15) as u8);
        let mut sum = Projection { syndrome: 0, parities: 0, top: 0 };
        for c in 0..COLUMNS {
            sum.syndrome ^= self.scaled[c][value(columns[c]) as usize];
            sum.parities |= (parity(columns[c]) as u32) << c;
            sum.top ^= top(columns[c]);
        }
        sum
    }

    pub fn encode(&self, message: u64) -> u64 {
        let tops = self.columns - 1;
        let parity = (message >> (2 * self.free.len() + tops)) as u8;
        let mut values = [0; COLUMNS];
        let mut syndrome = 0;
        for (i, &c) in self.free.iter().rev().enumerate() {
            values[c] = (message >> (tops + 2 * i) & 3) as u8;
            syndrome ^= self.scaled[c][values[c] as usize];
        }
        for (r, &c) in self.bound.iter().rev().enumerate() {
            values[c] = syndrome >> (2 * r) & 3;
        }
        let mut last_top = self.top_parity(parity);
        let mut word = 0;
        for c in 0..tops {
            let top = (message >> (tops - 1 - c) & 1) as u8;
            last_top ^= top;
            word = word << 4 | column_with(parity, values[c], top) as u64;
        }
        word << 4 | column_with(parity, values[tops], last_top) as u64
    }

    fn is_codeword(&self, word: u64) -> bool {
        let Projection { syndrome, parities, top } = self.project(word);
        let even = parities == 0 && top == 0;
        let odd = parities == self.all_odd() && top == self.top_parity(1);
        syndrome == 0 && (even || odd)
    }

    /// The message of a codeword.
    fn message(&self, codeword: u64) -> u64 {
        let mut message = parity(self.column(codeword, 0)) as u64;
        for &c in self.free {
            message = message << 2 | value(self.column(codeword, c)) as u64;
        }
        for c in 0..self.columns - 1 {
            message = message << 1 | top(self.column(codeword, c)) as u64;
        }
        message
    }

    /// Strict reading.
    pub fn decode(&self, word: u64) -> Option<u64> {
        self.is_codeword(word).then(|| self.message(word))
    }

    /// Mending with a walk over the columns; the codeword's message comes from a table for each byte. It is called, like the library's functions, and not inlined.
    #[inline(never)]
    pub fn mend_plain(&self, word: u64, marks: u64) -> Option<Correction> {
        self.mend(word, marks, |filled| self.project(filled))
    }

    /// Mending with a table for each byte.
    #[inline(never)]
    pub fn mend_bytes(&self, word: u64, marks: u64) -> Option<Correction> {
        self.mend(word, marks, |filled| Projection::unpack(sum_over_bytes(&self.projections, filled)))
    }

    /// The marked bits are filled with zeros, then with ones. If a codeword is near, it is within three bits of one of the two.
    fn mend(&self, word: u64, marks: u64, project: impl Fn(u64) -> Projection) -> Option<Correction> {
        let count = marks.count_ones();
        let near = |filled| {
            let codeword = self.within_three(filled, project(filled))?;
            let differing = codeword ^ word;
            let (wrong, marked_wrong) = ((differing & !marks).count_ones(), (differing & marks).count_ones());
            let message = sum_over_bytes(&self.messages, codeword);
            (2 * wrong + count <= 7).then_some([codeword, message as u64, wrong as u64, count as u64, marked_wrong as u64])
        };
        let found = near(word & !marks);
        if found.is_some() || marks == 0 { found } else { near(word | marks) }
    }

    /// The codeword within three bits of a word. At most three columns lack its parity.
    fn within_three(&self, word: u64, Projection { syndrome, parities, top }: Projection) -> Option<u64> {
        let odd = parities.count_ones() as usize;
        let even = self.columns - odd;
        let found = if odd <= 3 { self.with_parity(word, syndrome, odd, parities, top) } else { None };
        if found.is_some() || even > 3 {
            return found;
        }
        self.with_parity(word, syndrome, even, parities ^ self.all_odd(), top ^ self.top_parity(1))
    }

    /// The codeword within three bits of a word that has the parity which these columns, at most three, lack. `off` is 1 if the top row's parity
    /// has to change. An odd number of bits is inverted in each of these columns, and an even number in every other one.
    #[inline(always)]
    fn with_parity(&self, word: u64, syndrome: u8, count: usize, lacking: u32, off: u8) -> Option<u64> {
        let after_i = lacking & lacking.wrapping_sub(1);
        let after_j = after_i & after_i.wrapping_sub(1);
        let [i, j, k] = [lacking, after_i, after_j].map(|columns| columns.trailing_zeros() as usize);
        match count {
            0 if syndrome == 0 => (off == 0).then_some(word),
            0 => Some(word ^ self.two_bits(syndrome, off)?),
            1 => {
                // One bit of the column, or the three others: they have the same value.
                if let Some(a) = self.row_with(i, syndrome) {
                    let inverted = if top(row(a)) == off { row(a) } else { 15 ^ row(a) };
                    return Some(word ^ self.alone(i, inverted));
                }
                for a in 0..4 {
                    if let Some(two) = self.two_bits(syndrome ^ self.scaled[i][a as usize], off ^ top(row(a))) {
                        return Some(word ^ self.alone(i, row(a)) ^ two);
                    }
                }
                None
            }
            2 => {
                for a in 0..4 {
                    if let Some(b) = self.row_with(j, syndrome ^ self.scaled[i][a as usize]) {
                        let tops = top(row(a) ^ row(b));
                        return (tops == off).then_some(word ^ self.alone(i, row(a)) ^ self.alone(j, row(b)));
                    }
                }
                None
            }
            _ => {
                for a in 0..4 {
                    for b in 0..4 {
                        if let Some(c) = self.row_with(k, syndrome ^ self.scaled[i][a as usize] ^ self.scaled[j][b as usize]) {
                            let tops = top(row(a) ^ row(b) ^ row(c));
                            return (tops == off).then_some(word ^ self.alone(i, row(a)) ^ self.alone(j, row(b)) ^ self.alone(k, row(c)));
                        }
                    }
                }
                None
            }
        }
    }

    /// The row of a column whose bit alone has this syndrome.
    fn row_with(&self, c: usize, syndrome: u8) -> Option<u8> {
        let entry = self.entries[syndrome as usize];
        (syndrome == 0 || entry as usize / 4 == c + 1).then_some(entry % 4)
    }

    /// The word of two bits of one column with this syndrome, which is not 0, and this parity of the top row.
    fn two_bits(&self, syndrome: u8, top: u8) -> Option<u64> {
        let entry = self.entries[syndrome as usize];
        if entry == 0 {
            return None;
        }
        Some(self.alone(entry as usize / 4 - 1, column_with(0, entry % 4, top)))
    }

    /// Mending by a search through all codewords.
    pub fn search(&self, codewords: &[u64], word: u64, marks: u64) -> Option<Correction> {
        codewords.iter().enumerate().find_map(|(message, &c)| {
            let [wrong, count, marked_wrong] = [(c ^ word) & !marks, marks, (c ^ word) & marks].map(|bits| bits.count_ones() as u64);
            (2 * wrong + count <= 7).then_some([c, message as u64, wrong, count, marked_wrong])
        })
    }
}
