//! Document 02, request 106: an index on the card, in plain Rust like `plain`, and from the document alone.
use crate::plain::{self, Index, No};

/// Bytes of a block: number, edition, payload length, two zero bytes, payload, check.
pub const BLOCK: usize = 512;
pub const PAYLOAD: usize = 496;
pub const CHECKED: usize = 508;
pub const EDITION: u32 = 1;
const HEAD: usize = 12;
const HEADER: usize = 16;

fn two(bytes: &[u8], at: usize) -> u32 {
    bytes[at] as u32 + 256 * bytes[at + 1] as u32
}

fn four(bytes: &[u8], at: usize) -> u32 {
    u32::from_le_bytes([bytes[at], bytes[at + 1], bytes[at + 2], bytes[at + 3]])
}

/// The two sums over a block's first 508 bytes, as they are stored.
pub fn check(block: &[u8]) -> [u8; 4] {
    let (mut a, mut b) = (0, 0);
    for at in (0..CHECKED).step_by(2) {
        a = (a + two(block, at)) % 65_535;
        b = (b + a) % 65_535;
    }
    (a + 65_536 * b).to_le_bytes()
}

/// The block with the check that it should have.
pub fn sealed(mut block: Vec<u8>) -> Vec<u8> {
    let check = check(&block);
    block[CHECKED..].copy_from_slice(&check);
    block
}

// ---------------------------------------------------------------- the writer

/// The bytes that the blocks carry.
pub fn payload(rows: u64, index: &Index) -> Vec<u8> {
    let counts = [rows as u32, index.borders.len() as u32, index.imprints.len() as u32, index.dictionary.len() as u32];
    let mut bytes: Vec<u8> = counts.iter().flat_map(|count| count.to_le_bytes()).collect();
    bytes.extend(index.borders.iter().flat_map(|border| border.to_le_bytes()));
    bytes.extend(index.imprints.iter().flat_map(|imprint| imprint.to_le_bytes()));
    bytes.extend(index.dictionary.iter().flat_map(|entry| entry.to_le_bytes()));
    bytes
}

/// A block of this number with these bytes as its payload.
pub fn block(number: u32, payload: &[u8]) -> Vec<u8> {
    let mut block = Vec::new();
    block.extend(number.to_le_bytes());
    block.extend(EDITION.to_le_bytes());
    block.extend((payload.len() as u16).to_le_bytes());
    block.extend([0; 2]);
    block.extend(payload);
    block.resize(BLOCK, 0);
    sealed(block)
}

/// These bytes as blocks; all but the last are full.
pub fn blocks(payload: &[u8]) -> Vec<u8> {
    payload.chunks(PAYLOAD).enumerate().flat_map(|(number, part)| block(number as u32, part)).collect()
}

/// The image of these words, whatever they are.
pub fn image(rows: u64, index: &Index) -> Vec<u8> {
    blocks(&payload(rows, index))
}

/// 2, 5 or 3 where the words are no index of so many rows. Rows that a header tells have four bytes, so 2 is none of theirs: it is the
/// writer's, and a state's that was handed in.
pub fn is_index(rows: u64, index: &Index) -> Result<(), No> {
    if (plain::ROWS_AT_MOST as u64) < rows {
        return Err(No::of(2));
    }
    if !plain::borders_good(&index.borders) {
        return Err(No::of(5));
    }
    let lines = plain::lines(rows as usize) as u64;
    plain::accepted(&index.borders, &index.imprints, &index.dictionary, lines).map(|_| ()).ok_or(No::of(3))
}

/// The image, at the front of a card of `space` bytes.
pub fn write(rows: u64, index: &Index, space: usize) -> Result<Vec<u8>, No> {
    is_index(rows, index)?;
    let image = image(rows, index);
    if space < image.len() {
        return Err(No::short(image.len()));
    }
    Ok(image)
}

// ---------------------------------------------------------------- the reader

/// What a reader carries from block to block: the block due and, once block 0 is read, the header's counts. A fresh one is all zeros.
#[derive(Clone, Copy, Debug, Default, PartialEq, Eq)]
pub struct State {
    pub due: u64,
    pub rows: u64,
    pub borders: u64,
    pub imprints: u64,
    pub dictionary: u64,
}

impl State {
    /// How many bytes all blocks carry together.
    pub fn total(&self) -> u128 {
        HEADER as u128 + 4 * self.borders as u128 + 8 * self.imprints as u128 + 4 * self.dictionary as u128
    }

    /// How many of them the blocks before the due one carry.
    pub fn before(&self) -> u128 {
        PAYLOAD as u128 * self.due as u128
    }

    pub fn words(&self) -> [u64; 5] {
        [self.due, self.rows, self.borders, self.imprints, self.dictionary]
    }

    /// The counts that the header in block 0 tells.
    pub fn header(block: &[u8]) -> State {
        let [rows, borders, imprints, dictionary] = [0, 4, 8, 12].map(|at| four(block, HEAD + at) as u64);
        State { due: 0, rows, borders, imprints, dictionary }
    }
}

/// A block that was taken: whether it was the last, the state after it, and what stands in the three spaces.
#[derive(Clone, Debug, PartialEq, Eq)]
pub struct Fed {
    pub ended: bool,
    pub state: State,
    pub spaces: Index,
}

/// The told words, at the fronts of the spaces.
pub fn told(state: &State, spaces: &Index) -> Index {
    Index {
        borders: spaces.borders[..state.borders as usize].to_vec(),
        imprints: spaces.imprints[..state.imprints as usize].to_vec(),
        dictionary: spaces.dictionary[..state.dictionary as usize].to_vec(),
    }
}

/// The told words back at the fronts of the spaces.
pub fn put_back(words: &Index, spaces: &Index) -> Index {
    fn front<T: Copy>(words: &[T], space: &[T]) -> Vec<T> {
        [words, &space[words.len()..]].concat()
    }
    Index {
        borders: front(&words.borders, &spaces.borders),
        imprints: front(&words.imprints, &spaces.imprints),
        dictionary: front(&words.dictionary, &spaces.dictionary),
    }
}

/// The told words with the due block's bytes laid over theirs. The other bytes of a word that lies across two blocks stay.
pub fn laid(state: &State, words: &Index, part: &[u8]) -> Index {
    let mut bytes = payload(state.rows, words);
    let from = state.before() as usize;
    bytes[from..from + part.len()].copy_from_slice(part);
    let (borders, rest) = bytes[HEADER..].split_at(4 * words.borders.len());
    let (imprints, dictionary) = rest.split_at(8 * words.imprints.len());
    Index {
        borders: borders.chunks(4).map(|word| i32::from_le_bytes(word.try_into().unwrap())).collect(),
        imprints: imprints.chunks(8).map(|word| u64::from_le_bytes(word.try_into().unwrap())).collect(),
        dictionary: dictionary.chunks(4).map(|word| u32::from_le_bytes(word.try_into().unwrap())).collect(),
    }
}

/// Its size is 512 and its check fits.
pub fn sound(bytes: &[u8]) -> bool {
    bytes.len() == BLOCK && check(bytes) == bytes[CHECKED..]
}

/// Its number is the due one, it is not past the last, and it has the payload length that is due with zeros behind it.
pub fn in_place(block: &[u8], state: &State) -> bool {
    if four(block, 0) as u64 != state.due || state.total() <= state.before() {
        return false;
    }
    let length = (state.total() - state.before()).min(PAYLOAD as u128) as usize;
    two(block, 8) == length as u32 && two(block, 10) == 0 && block[HEAD + length..CHECKED].iter().all(|&byte| byte == 0)
}

/// The first space shorter than its count.
pub fn short(state: &State, spaces: &Index) -> Option<No> {
    let lengths = [spaces.borders.len(), spaces.imprints.len(), spaces.dictionary.len()];
    let counts = [state.borders, state.imprints, state.dictionary];
    (0..3).find(|&space| (lengths[space] as u64) < counts[space]).map(|space| No::short(counts[space] as usize))
}

pub fn feed(block: &[u8], state: State, spaces: &Index) -> Result<Fed, No> {
    if !sound(block) {
        return Err(No::at(15, state.due));
    }
    if four(block, 4) != EDITION {
        return Err(No::at(14, state.due));
    }
    let state = if state.due == 0 { State::header(block) } else { state };
    if !in_place(block, &state) {
        return Err(No::at(15, state.due));
    }
    if let Some(no) = short(&state, spaces) {
        return Err(no);
    }
    let words = laid(&state, &told(&state, spaces), &block[HEAD..HEAD + two(block, 8) as usize]);
    let ended = state.total() <= state.before() + PAYLOAD as u128;
    if ended {
        is_index(state.rows, &words)?;
    }
    Ok(Fed { ended, state: State { due: state.due + 1, ..state }, spaces: put_back(&words, spaces) })
}
