//! An index on the card: written as blocks of 512 bytes, each with its own check, and read from them one at a time.
//!
//! A block is its number from 0 (4 bytes), the edition (4), the payload length (2), two zero bytes, 496 bytes of payload filled up with
//! zeros, and the check (4), low byte first throughout. The check is two sums over the bytes before it as two-byte numbers x: a = a + x and
//! b = b + a, both from 0 and modulo 65,535. All blocks but the last are full. Together the payloads are the row count, the numbers of
//! borders, imprints and dictionary words (4 bytes each), and these: imprints in 8 bytes, the others in 4. One index has one image.
//!
//! One changed byte of a block is always noticed. The sums can't tell a two-byte number 0 from 65,535: that change is not, by the check.
//!
//! ```
//! use miguzoryane::{card, Error, IndexBuf};
//!
//! let minutes: Vec<i32> = (0..5000).collect();
//! let index = IndexBuf::build(&minutes)?;
//! let mut image = card::image(minutes.len(), index.as_index())?;
//! assert_eq!(card::read(&image)?, index);
//!
//! // A bit of block 2 is flipped.
//! image[2 * card::BLOCK + 100] ^= 1;
//! assert_eq!(card::read(&image), Err(Error::BadBlock { block: 2 }));
//! # Ok::<(), Error>(())
//! ```
use crate::face::{mgz_card_feed, mgz_card_write};
use crate::{Error, Index, IndexBuf, BORDERS_AT_MOST, LINES_AT_MOST};

/// The bytes of a block.
pub const BLOCK: usize = 512;
/// So many of them are payload, or filler behind it.
pub const PAYLOAD: usize = 496;
/// The edition that is written and read.
pub const EDITION: u32 = 1;

/// The first bytes of the payload: four counts.
const HEADER: usize = 16;

/// How many bytes the image of an index has.
///
/// ```
/// use miguzoryane::{card, Index};
///
/// let index = Index { borders: &[5, 20], imprints: &[2, 4], dictionary: &[16777218, 1] };
/// assert_eq!(card::bytes(index), 512);
/// ```
pub const fn bytes(index: Index<'_>) -> usize {
    (HEADER + 4 * index.borders.len() + 8 * index.imprints.len() + 4 * index.dictionary.len()).div_ceil(PAYLOAD) * BLOCK
}

/// Writes an index of so many rows as an image at the front of a lent space, and tells the image's length in bytes. Bytes behind it stay.
///
/// [`bytes`] of the index is just enough. Refused, in this order, with [`ColumnTooLong`](Error::ColumnTooLong),
/// [`BadBorders`](Error::BadBorders), [`NotAnIndex`](Error::NotAnIndex), and [`SpaceShort`](Error::SpaceShort) with the bytes needed.
///
/// ```
/// use miguzoryane::{card, Error, Index};
///
/// let index = Index { borders: &[5, 20], imprints: &[2, 4], dictionary: &[16777218, 1] };
/// let mut space = [77; 600];
/// assert_eq!(card::write(40, index, &mut space)?, 512);
/// assert_eq!(space[..12], [0, 0, 0, 0, 1, 0, 0, 0, 48, 0, 0, 0]);
/// assert_eq!(space[508..513], [129, 1, 191, 94, 77]);
///
/// assert_eq!(card::write(40, index, &mut space[..511]), Err(Error::SpaceShort { needed: 512 }));
/// assert_eq!(card::write(49, index, &mut space), Err(Error::NotAnIndex));
/// # Ok::<(), Error>(())
/// ```
pub fn write(rows: usize, index: Index<'_>, card: &mut [u8]) -> Result<usize, Error> {
    let mut out = [0; 2];
    // SAFETY: every pointer and length is of one slice, and the slice written is borrowed mutably, so it overlaps no other.
    let number = unsafe {
        mgz_card_write(
            rows as u64,
            index.borders.as_ptr(),
            index.borders.len(),
            index.imprints.as_ptr(),
            index.imprints.len(),
            index.dictionary.as_ptr(),
            index.dictionary.len(),
            card.as_mut_ptr(),
            card.len(),
            &mut out,
        )
    };
    let [needed, bytes] = out;
    Error::check(number, needed)?;
    Ok(bytes as usize)
}

/// The image of an index of so many rows, in a space of its own.
///
/// ```
/// use miguzoryane::{card, IndexBuf};
///
/// let index = IndexBuf::build(&[5; 40])?;
/// let image = card::image(index.covered(), index.as_index())?;
/// assert_eq!(image.len(), 512);
/// # Ok::<(), miguzoryane::Error>(())
/// ```
pub fn image(rows: usize, index: Index<'_>) -> Result<Vec<u8>, Error> {
    let mut card = vec![0; bytes(index)];
    write(rows, index, &mut card)?;
    Ok(card)
}

/// What a reader carries from block to block. A fresh one is all zeros, the default. Any state may be handed to [`feed`].
#[derive(Clone, Copy, Debug, Default, PartialEq, Eq)]
pub struct State {
    /// The block due.
    pub due: u64,
    /// The row count of the header. It and the three below don't matter while block 0 is due.
    pub rows: u64,
    /// The number of borders.
    pub borders: u64,
    /// The number of imprints.
    pub imprints: u64,
    /// The number of dictionary words.
    pub dictionary: u64,
}

/// A block that was taken.
#[derive(Clone, Copy, Debug, PartialEq, Eq)]
pub struct Fed {
    /// Was it the last?
    pub ended: bool,
    /// The state after it, to be handed in with the next block.
    pub state: State,
}

/// Feeds one block to a reader, in lent spaces. [`CardReader`] sees to state and spaces.
///
/// At the last block the index stands at the fronts of the three spaces, as long as the state's counts say, and is what the writer was
/// given; until then a part of it does. Words behind the counts are never changed. A refused block changes nothing: the reader goes on from
/// the same state, with the same block read once more from the card, or with longer spaces. An empty slice says that there is no more.
///
/// Refused, in this order, with [`BadBlock`](Error::BadBlock) if the size or the check is wrong, [`OtherEdition`](Error::OtherEdition),
/// [`BadBlock`](Error::BadBlock) for all else that is wrong with the block, its number among it; [`SpaceShort`](Error::SpaceShort) with the
/// count of the first short space; and at the last block with [`ColumnTooLong`](Error::ColumnTooLong), [`BadBorders`](Error::BadBorders) or
/// [`NotAnIndex`](Error::NotAnIndex) where sound blocks hold no index. The first of these only where a state was handed in with so many
/// rows: a header has no room for them.
///
/// ```
/// use miguzoryane::{card, Error, IndexBuf};
///
/// let index = IndexBuf::build(&[5, 20, 5, 7])?;
/// let image = card::image(4, index.as_index())?;
/// let (mut borders, mut imprints, mut dictionary) = ([0; 63], [0; 9], [0; 9]);
///
/// let short = card::feed(&image, card::State::default(), &mut [0; 2], &mut imprints, &mut dictionary);
/// assert_eq!(short, Err(Error::SpaceShort { needed: 3 }));
///
/// let fed = card::feed(&image, card::State::default(), &mut borders, &mut imprints, &mut dictionary)?;
/// assert!(fed.ended);
/// assert_eq!((fed.state.due, fed.state.rows), (1, 4));
/// assert_eq!(borders[..3], [5, 7, 20]);
///
/// // No block is due any more.
/// let extra = card::feed(&image, fed.state, &mut borders, &mut imprints, &mut dictionary);
/// assert_eq!(extra, Err(Error::BadBlock { block: 1 }));
/// # Ok::<(), Error>(())
/// ```
pub fn feed(block: &[u8], state: State, borders: &mut [i32], imprints: &mut [u64], dictionary: &mut [u32]) -> Result<Fed, Error> {
    let mut out = [0; 8];
    // SAFETY: every pointer and length is of one slice, and the slices written are borrowed mutably, so none overlaps another.
    let number = unsafe {
        mgz_card_feed(
            block.as_ptr(),
            block.len(),
            state.due,
            state.rows,
            state.borders,
            state.imprints,
            state.dictionary,
            borders.as_mut_ptr(),
            borders.len(),
            imprints.as_mut_ptr(),
            imprints.len(),
            dictionary.as_mut_ptr(),
            dictionary.len(),
            &mut out,
        )
    };
    let [needed, block, ended, due, rows, borders, imprints, dictionary] = out;
    // One of the two at most is not 0.
    Error::check(number, needed + block)?;
    Ok(Fed { ended: ended != 0, state: State { due, rows, borders, imprints, dictionary } })
}

/// Reads an index from the card, block by block, in spaces of its own.
///
/// The spaces are as long as the header in block 0 says, and never longer than an index can be: [`BORDERS_AT_MOST`] borders,
/// [`LINES_AT_MOST`] imprints and as many dictionary words, some 3 GB. A header that claims more is refused as
/// [`SpaceShort`](Error::SpaceShort) with the first such count, and nothing is allocated for it; so is one that claims more than there is
/// memory for. What was allocated takes memory as blocks fill it.
///
/// ```
/// use miguzoryane::{card, Error, IndexBuf};
///
/// let index = IndexBuf::build(&(0..5000).collect::<Vec<i32>>())?;
/// let image = card::image(5000, index.as_index())?;
///
/// let mut reader = card::CardReader::new();
/// for block in image.chunks(card::BLOCK) {
///     let mut damaged = block.to_vec();
///     damaged[9] ^= 16;
///     assert_eq!(reader.feed(&damaged), Err(Error::BadBlock { block: reader.due() }));
///     // Read once more from the card, it is good.
///     reader.feed(block)?;
/// }
/// assert_eq!(reader.finish()?, index);
/// # Ok::<(), Error>(())
/// ```
#[derive(Clone, Debug, Default)]
pub struct CardReader {
    state: State,
    ended: bool,
    borders: Vec<i32>,
    imprints: Vec<u64>,
    dictionary: Vec<u32>,
}

impl CardReader {
    /// A fresh reader: block 0 is due.
    pub fn new() -> CardReader {
        CardReader::default()
    }

    /// Feeds it the next block, and tells whether that was the last. A refused block changes nothing; it is refused as by [`feed`], in
    /// spaces that are long enough for any index.
    pub fn feed(&mut self, block: &[u8]) -> Result<bool, Error> {
        let mut answer = self.feed_once(block);
        // 4 is the last test before those of the whole, so block 0 is sound, and the header in it is what the counts were taken from.
        if matches!(answer, Err(Error::SpaceShort { .. })) && self.state.due == 0 {
            self.make_room(block)?;
            answer = self.feed_once(block);
        }
        let fed = answer?;
        self.state = fed.state;
        self.ended = fed.ended;
        Ok(fed.ended)
    }

    fn feed_once(&mut self, block: &[u8]) -> Result<Fed, Error> {
        feed(block, self.state, &mut self.borders, &mut self.imprints, &mut self.dictionary)
    }

    /// Makes the spaces as long as the header in block 0 says, unless that is more than any index has.
    fn make_room(&mut self, block: &[u8]) -> Result<(), Error> {
        let count = |at: usize| u32::from_le_bytes([block[at], block[at + 1], block[at + 2], block[at + 3]]) as usize;
        let [borders, imprints, dictionary] = [16, 20, 24].map(count);
        for (needed, most) in [(borders, BORDERS_AT_MOST), (imprints, LINES_AT_MOST), (dictionary, LINES_AT_MOST)] {
            if most < needed {
                return Err(Error::SpaceShort { needed });
            }
        }
        self.borders = zeros(borders)?;
        self.imprints = zeros(imprints)?;
        self.dictionary = zeros(dictionary)?;
        Ok(())
    }

    /// The block due. After the last one it is the number of blocks.
    pub fn due(&self) -> usize {
        self.state.due as usize
    }

    /// The block due and, once block 0 was taken, the header's counts.
    pub fn state(&self) -> State {
        self.state
    }

    /// Has the last block been taken?
    pub fn ended(&self) -> bool {
        self.ended
    }

    /// The index, once the last block has been taken; it [covers](IndexBuf::covered) as many rows as the header says. Before that, a block is
    /// missing: [`BadBlock`](Error::BadBlock) with the block due.
    pub fn finish(mut self) -> Result<IndexBuf, Error> {
        if !self.ended {
            return Err(Error::BadBlock { block: self.due() });
        }
        // They can be longer where another block 0 was refused before.
        self.borders.truncate(self.state.borders as usize);
        self.imprints.truncate(self.state.imprints as usize);
        self.dictionary.truncate(self.state.dictionary as usize);
        Ok(IndexBuf::of(self.state.rows as usize, self.borders, self.imprints, self.dictionary))
    }
}

/// So many zeros, if there is memory for them. It is not touched yet.
fn zeros<T: Clone + Default>(length: usize) -> Result<Vec<T>, Error> {
    let there_is = Vec::<T>::new().try_reserve_exact(length).is_ok();
    if !there_is {
        return Err(Error::SpaceShort { needed: length });
    }
    Ok(vec![T::default(); length])
}

/// Reads a whole image: nothing but its blocks, in order. The index that it gives [covers](IndexBuf::covered) as many rows as were written.
///
/// Refused as by [`CardReader`]. A missing block, and whatever stands behind the last one, is [`BadBlock`](Error::BadBlock) with the block
/// due.
///
/// ```
/// use miguzoryane::{card, Error, IndexBuf};
///
/// let minutes: Vec<i32> = (0..5000).collect();
/// let image = card::image(5000, IndexBuf::build(&minutes)?.as_index())?;
/// let index = card::read(&image)?;
/// assert_eq!(index.covered(), 5000);
/// assert_eq!(index.rows(&minutes, 150..=152)?, [150, 151, 152]);
///
/// let blocks = image.len() / card::BLOCK;
/// assert_eq!(card::read(&image[..image.len() - card::BLOCK]), Err(Error::BadBlock { block: blocks - 1 }));
/// assert_eq!(card::read(&[image.as_slice(), &[0]].concat()), Err(Error::BadBlock { block: blocks }));
/// # Ok::<(), Error>(())
/// ```
pub fn read(image: &[u8]) -> Result<IndexBuf, Error> {
    let mut reader = CardReader::new();
    for block in image.chunks(BLOCK) {
        reader.feed(block)?;
    }
    reader.finish()
}
