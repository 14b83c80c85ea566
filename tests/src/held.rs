//! Each call made of the library and of the plain implementation, and everything compared: the number, every word
//! of every lent space (of the read ones too), and the guard words on both sides of each. The answer handed back is the plain one.
use crate::face::*;
use crate::plain::{self, Entry, Filter, Found, Index, No, Outcome, Position, Told};
use crate::plain_card::{self, Fed, State};
use std::cell::RefCell;
use std::fmt::Debug;

thread_local! { static CASE: RefCell<String> = const { RefCell::new(String::new()) }; }

/// What is being tried, for the message of a comparison that fails.
pub fn case(text: String) {
    CASE.with(|case| *case.borrow_mut() = text);
}

fn differ(call: &str, what: &str) -> ! {
    CASE.with(|case| panic!("{call}: {what} [case: {}]", case.borrow()))
}

pub trait Word: Copy + PartialEq + Debug {
    /// A word that stands for "never written"; it differs from place to place.
    fn stale(place: usize) -> Self;
}

fn mixed(place: usize) -> u64 {
    (place as u64 + 1).wrapping_mul(0x9E37_79B9_7F4A_7C15)
}

impl Word for u8 {
    fn stale(place: usize) -> u8 {
        (mixed(place) >> 32) as u8
    }
}

impl Word for i32 {
    fn stale(place: usize) -> i32 {
        mixed(place) as i32
    }
}

impl Word for u32 {
    fn stale(place: usize) -> u32 {
        mixed(place) as u32
    }
}

impl Word for u64 {
    fn stale(place: usize) -> u64 {
        mixed(place)
    }
}

const GUARDS: usize = 16;

/// A lent space with guard words before and after it.
pub struct Space<T> {
    all: Vec<T>,
    length: usize,
}

impl<T: Word> Space<T> {
    pub fn of(words: &[T]) -> Space<T> {
        let length = words.len();
        let mut all: Vec<T> = (0..GUARDS).map(T::stale).collect();
        all.extend_from_slice(words);
        all.extend((GUARDS + length..2 * GUARDS + length).map(T::stale));
        Space { all, length }
    }

    /// A space nobody has written to.
    pub fn stale(length: usize) -> Space<T> {
        let all = (0..2 * GUARDS + length).map(T::stale).collect();
        Space { all, length }
    }

    pub fn words(&self) -> &[T] {
        &self.all[GUARDS..GUARDS + self.length]
    }

    pub fn ptr(&self) -> *const T {
        self.words().as_ptr()
    }

    pub fn mut_ptr(&mut self) -> *mut T {
        self.all[GUARDS..].as_mut_ptr()
    }

    pub fn len(&self) -> usize {
        self.length
    }

    pub fn is_empty(&self) -> bool {
        self.length == 0
    }

    fn guards(&self, call: &str, name: &str) {
        let after = GUARDS + self.length;
        for place in (0..GUARDS).chain(after..after + GUARDS) {
            if self.all[place] != T::stale(place) {
                differ(call, &format!("a word outside `{name}` was changed"));
            }
        }
    }

    /// The words are exactly these.
    fn same(&self, call: &str, name: &str, wanted: &[T]) {
        self.guards(call, name);
        assert_eq!(self.length, wanted.len());
        if let Some(place) = (0..self.length).find(|&place| self.words()[place] != wanted[place]) {
            let (got, want) = (self.words()[place], wanted[place]);
            differ(call, &format!("`{name}`[{place}] is {got:?}, should be {want:?}"));
        }
    }

    /// The front is this, and what follows was never written.
    fn front(&self, call: &str, name: &str, front: &[T]) {
        self.guards(call, name);
        let place = (0..self.length).find(|&place| self.words()[place] != *front.get(place).unwrap_or(&T::stale(GUARDS + place)));
        if let Some(place) = place {
            let (got, want) = (self.words()[place], front.get(place).copied().unwrap_or(T::stale(GUARDS + place)));
            differ(call, &format!("`{name}`[{place}] is {got:?}, should be {want:?}"));
        }
        assert!(front.len() <= self.length);
    }
}

/// Longer ones are lent as they stand, without guard words: columns and lists that are mapped, or fill much of the memory.
const COPIED_AT_MOST: usize = (1 << 24) + 32;

/// A column or a list, lent to be read.
enum Lent<'a, T> {
    Copied(Space<T>),
    AsItStands(&'a [T]),
}

impl<T: Word> Lent<'_, T> {
    fn of(words: &[T]) -> Lent<'_, T> {
        if words.len() <= COPIED_AT_MOST {
            Lent::Copied(Space::of(words))
        } else {
            Lent::AsItStands(words)
        }
    }

    fn ptr(&self) -> *const T {
        match self {
            Lent::Copied(space) => space.ptr(),
            Lent::AsItStands(words) => words.as_ptr(),
        }
    }

    fn len(&self) -> usize {
        match self {
            Lent::Copied(space) => space.len(),
            Lent::AsItStands(words) => words.len(),
        }
    }

    /// What was lent as it stands can't be compared with itself: whoever lends it sees to that.
    fn same(&self, call: &str, name: &str, wanted: &[T]) {
        if let Lent::Copied(space) = self {
            space.same(call, name, wanted);
        }
    }
}

fn number<T>(call: &str, got: u32, wanted: &Result<T, No>) {
    let want = wanted.as_ref().err().map_or(0, |no| no.number);
    if got != want {
        differ(call, &format!("the number is {got}, should be {want}"));
    }
}

fn needed<T>(answer: &Result<T, No>) -> u64 {
    answer.as_ref().err().map_or(0, |no| no.needed)
}

/// How often each number came, so that no comparison is an empty one.
#[derive(Default)]
pub struct Numbers([usize; 18]);

impl Numbers {
    pub fn count<T>(&mut self, answer: &Result<T, No>) {
        self.0[answer.as_ref().err().map_or(0, |no| no.number) as usize] += 1;
    }

    pub fn seen(&self, numbers: &[usize]) {
        for (number, &times) in self.0.iter().enumerate() {
            assert_eq!(times != 0, numbers.contains(&number), "number {number} came {times} times");
        }
    }
}

pub fn build(column: &[i32], spaces: [usize; 3]) -> Result<Index, No> {
    let answer = plain::build(column, spaces);
    let lent = Lent::of(column);
    let mut borders = Space::<i32>::stale(spaces[0]);
    let mut imprints = Space::<u64>::stale(spaces[1]);
    let mut dictionary = Space::<u32>::stale(spaces[2]);
    let mut out = Space::<u64>::stale(4);
    let got = unsafe {
        mgz_build(
            lent.ptr(),
            lent.len(),
            borders.mut_ptr(),
            borders.len(),
            imprints.mut_ptr(),
            imprints.len(),
            dictionary.mut_ptr(),
            dictionary.len(),
            out.mut_ptr(),
        )
    };
    let call = "mgz_build";
    number(call, got, &answer);
    lent.same(call, "column", column);
    let index = answer.clone().unwrap_or_default();
    let lengths = [needed(&answer), index.borders.len() as u64, index.imprints.len() as u64, index.dictionary.len() as u64];
    out.same(call, "out", &lengths);
    borders.front(call, "borders", &index.borders);
    imprints.front(call, "imprints", &index.imprints);
    dictionary.front(call, "dictionary", &index.dictionary);
    answer
}

pub fn pack(list: &[u64], borders: &[i32], spaces: [usize; 2]) -> Result<(Vec<u64>, Vec<u32>), No> {
    let answer = plain::pack(list, borders, spaces);
    let (lent, lent_borders) = (Lent::of(list), Space::of(borders));
    let mut imprints = Space::<u64>::stale(spaces[0]);
    let mut dictionary = Space::<u32>::stale(spaces[1]);
    let mut out = Space::<u64>::stale(3);
    let got = unsafe {
        mgz_pack(
            lent.ptr(),
            lent.len(),
            lent_borders.ptr(),
            lent_borders.len(),
            imprints.mut_ptr(),
            imprints.len(),
            dictionary.mut_ptr(),
            dictionary.len(),
            out.mut_ptr(),
        )
    };
    let call = "mgz_pack";
    number(call, got, &answer);
    lent.same(call, "list", list);
    lent_borders.same(call, "borders", borders);
    let (kept, entries) = answer.as_ref().map_or((&[][..], &[][..]), |(kept, entries)| (kept, entries));
    let lengths = [needed(&answer), kept.len() as u64, entries.len() as u64];
    out.same(call, "out", &lengths);
    imprints.front(call, "imprints", kept);
    dictionary.front(call, "dictionary", entries);
    answer
}

/// What a space holds once the front is these words, and what follows stands as it was.
fn with_front<T: Word>(front: &[T], before: &[T]) -> Vec<T> {
    [front, &before[front.len()..]].concat()
}

/// Leaves in the spaces what the library left there, and tells the new lengths.
pub fn append(column: &[i32], covered: u64, index: &mut Told) -> Result<Index, No> {
    let answer = plain::append(column, covered, index);
    let (lent, borders) = (Lent::of(column), Space::of(&index.borders));
    let mut imprints = Space::of(&index.imprints);
    let mut dictionary = Space::of(&index.dictionary);
    let mut out = Space::<u64>::stale(3);
    let got = unsafe {
        mgz_append(
            lent.ptr(),
            lent.len(),
            covered,
            borders.ptr(),
            borders.len(),
            imprints.mut_ptr(),
            imprints.len(),
            index.imprints_told,
            dictionary.mut_ptr(),
            dictionary.len(),
            index.dictionary_told,
            out.mut_ptr(),
        )
    };
    let call = "mgz_append";
    number(call, got, &answer);
    lent.same(call, "column", column);
    borders.same(call, "borders", &index.borders);
    let after = answer.clone().unwrap_or_default();
    out.same(call, "out", &[needed(&answer), after.imprints.len() as u64, after.dictionary.len() as u64]);
    imprints.same(call, "imprints", &with_front(&after.imprints, &index.imprints));
    dictionary.same(call, "dictionary", &with_front(&after.dictionary, &index.dictionary));
    if answer.is_ok() {
        index.imprints = imprints.words().to_vec();
        index.imprints_told = after.imprints.len() as u64;
        index.dictionary = dictionary.words().to_vec();
        index.dictionary_told = after.dictionary.len() as u64;
    }
    answer
}

/// The three parts of an index, lent to be read.
struct Parts {
    borders: Space<i32>,
    imprints: Space<u64>,
    dictionary: Space<u32>,
}

impl Parts {
    fn of(index: &Index) -> Parts {
        Parts { borders: Space::of(&index.borders), imprints: Space::of(&index.imprints), dictionary: Space::of(&index.dictionary) }
    }

    fn same(&self, call: &str, index: &Index) {
        self.borders.same(call, "borders", &index.borders);
        self.imprints.same(call, "imprints", &index.imprints);
        self.dictionary.same(call, "dictionary", &index.dictionary);
    }
}

pub fn unpack(index: &Index, lines: u64, space: usize) -> Result<Vec<u64>, No> {
    let answer = plain::unpack(&index.borders, &index.imprints, &index.dictionary, lines, space);
    let parts = Parts::of(index);
    let mut list = Space::<u64>::stale(space);
    let mut out = Space::<u64>::stale(1);
    let got = unsafe {
        mgz_unpack(
            parts.borders.ptr(),
            parts.borders.len(),
            parts.imprints.ptr(),
            parts.imprints.len(),
            parts.dictionary.ptr(),
            parts.dictionary.len(),
            lines,
            list.mut_ptr(),
            list.len(),
            out.mut_ptr(),
        )
    };
    let call = "mgz_unpack";
    number(call, got, &answer);
    parts.same(call, index);
    out.same(call, "needed", &[needed(&answer)]);
    list.front(call, "list", answer.as_deref().unwrap_or(&[]));
    answer
}

pub fn step(dictionary: &[u32], imprints: &[u64], at: Position) -> Result<(Option<u64>, Position), No> {
    let answer = plain::step(dictionary, imprints, at);
    let (entries, kept) = (Space::of(dictionary), Space::of(imprints));
    let mut out = Space::<u64>::stale(5);
    let got = unsafe { mgz_step(entries.ptr(), entries.len(), kept.ptr(), kept.len(), at.entry, at.place, at.number, out.mut_ptr()) };
    let call = "mgz_step";
    number(call, got, &answer);
    entries.same(call, "dictionary", dictionary);
    kept.same(call, "imprints", imprints);
    let told = match answer {
        Err(_) => [0; 5],
        Ok((imprint, after)) => [imprint.is_none() as u64, imprint.unwrap_or(0), after.entry, after.place, after.number],
    };
    out.same(call, "out", &told);
    answer
}

pub fn search(column: &[i32], index: &Index, low: i32, high: i32, space: usize) -> Result<Found, No> {
    let answer = plain::search(column, &index.borders, &index.imprints, &index.dictionary, low, high, space);
    let (lent, parts) = (Lent::of(column), Parts::of(index));
    let mut ids = Space::<u32>::stale(space);
    let mut out = Space::<u64>::stale(5);
    let got = unsafe {
        mgz_search(
            lent.ptr(),
            lent.len(),
            parts.borders.ptr(),
            parts.borders.len(),
            parts.imprints.ptr(),
            parts.imprints.len(),
            parts.dictionary.ptr(),
            parts.dictionary.len(),
            low,
            high,
            ids.mut_ptr(),
            ids.len(),
            out.mut_ptr(),
        )
    };
    let call = "mgz_search";
    number(call, got, &answer);
    lent.same(call, "column", column);
    parts.same(call, index);
    let found = answer.clone().unwrap_or_default();
    let told = [needed(&answer), found.ids.len() as u64, found.skipped, found.whole, found.compared];
    out.same(call, "out", &told);
    ids.front(call, "ids", &found.ids);
    answer
}

/// Filter words after a call: unchanged unless they changed their meaning; then the words in use are the new layout,
/// the words behind the formula are unchanged, and those between are free.
fn filter_words(call: &str, words: &Space<u32>, before: &[u32], after: Option<&Filter>) {
    let Some(filter) = after else {
        return words.same(call, "words", before);
    };
    let mut wanted = words.words().to_vec();
    let layout = filter.layout();
    wanted[..layout.len()].copy_from_slice(&layout);
    let behind = plain::filter_words(filter.room) as usize;
    wanted[behind..].copy_from_slice(&before[behind..]);
    words.same(call, "words", &wanted);
}

pub fn formula(room: u32) {
    let (got, want) = (unsafe { mgz_filter_words(room) }, plain::filter_words(room));
    if got != want {
        differ("mgz_filter_words", &format!("of room {room}: {got}, should be {want}"));
    }
}

/// The calls that write filter words take them and leave in them what the library left there, the free words too.
pub fn fresh(levels: u32, room: u32, words: &mut Vec<u32>) -> Result<Filter, No> {
    let answer = plain::fresh(levels, room, words.len());
    let mut lent = Space::of(words);
    let mut out = Space::<u64>::stale(1);
    let got = unsafe { mgz_filter_fresh(levels, room, lent.mut_ptr(), lent.len(), out.mut_ptr()) };
    let call = "mgz_filter_fresh";
    number(call, got, &answer);
    out.same(call, "needed", &[needed(&answer)]);
    filter_words(call, &lent, words, answer.as_ref().ok());
    *words = lent.words().to_vec();
    answer
}

pub fn ask(words: &[u32], low: u32, high: u32) -> Result<bool, No> {
    let answer = plain::ask(words, low, high);
    let lent = Space::of(words);
    let mut look = Space::<u32>::stale(1);
    let got = unsafe { mgz_filter_ask(lent.ptr(), lent.len(), low, high, look.mut_ptr()) };
    let call = "mgz_filter_ask";
    number(call, got, &answer);
    look.same(call, "look", &[*answer.as_ref().unwrap_or(&false) as u32]);
    filter_words(call, &lent, words, None);
    answer
}

pub fn learn(words: &mut Vec<u32>, low: u32, high: u32) -> Result<Filter, No> {
    let answer = plain::learn(words, low, high);
    let mut lent = Space::of(words);
    let got = unsafe { mgz_filter_learn(lent.mut_ptr(), lent.len(), low, high) };
    number("mgz_filter_learn", got, &answer);
    filter_words("mgz_filter_learn", &lent, words, answer.as_ref().ok());
    *words = lent.words().to_vec();
    answer
}

pub fn arrive(words: &mut Vec<u32>, key: u32) -> Result<Filter, No> {
    let answer = plain::arrive(words, key);
    let mut lent = Space::of(words);
    let got = unsafe { mgz_filter_arrive(lent.mut_ptr(), lent.len(), key) };
    number("mgz_filter_arrive", got, &answer);
    filter_words("mgz_filter_arrive", &lent, words, answer.as_ref().ok());
    *words = lent.words().to_vec();
    answer
}

pub fn depart(words: &[u32], key: u32) -> Result<(), No> {
    let answer = plain::depart(words, key);
    let lent = Space::of(words);
    let got = unsafe { mgz_filter_depart(lent.ptr(), lent.len(), key) };
    number("mgz_filter_depart", got, &answer);
    filter_words("mgz_filter_depart", &lent, words, None);
    answer
}

pub fn forget(words: &mut Vec<u32>) -> Result<Filter, No> {
    let answer = plain::forget(words);
    let mut lent = Space::of(words);
    let got = unsafe { mgz_filter_forget(lent.mut_ptr(), lent.len()) };
    number("mgz_filter_forget", got, &answer);
    filter_words("mgz_filter_forget", &lent, words, answer.as_ref().ok());
    *words = lent.words().to_vec();
    answer
}

pub fn read(words: &[u32]) -> Result<[u64; 4], No> {
    let answer = plain::read(words);
    let lent = Space::of(words);
    let mut out = Space::<u64>::stale(4);
    let got = unsafe { mgz_filter_read(lent.ptr(), lent.len(), out.mut_ptr()) };
    let call = "mgz_filter_read";
    number(call, got, &answer);
    out.same(call, "out", answer.as_ref().unwrap_or(&[0; 4]));
    filter_words(call, &lent, words, None);
    answer
}

pub fn guarded(words: &mut Vec<u32>, column: &[i32], index: &Index, low: u32, high: u32, space: usize) -> Result<(Outcome, Found), No> {
    let answer = plain::guarded(words, column, &index.borders, &index.imprints, &index.dictionary, low, high, space);
    let (lent, parts) = (Lent::of(column), Parts::of(index));
    let mut lent_words = Space::of(words);
    let mut ids = Space::<u32>::stale(space);
    let mut out = Space::<u64>::stale(6);
    let got = unsafe {
        mgz_guarded_search(
            lent_words.mut_ptr(),
            lent_words.len(),
            lent.ptr(),
            lent.len(),
            parts.borders.ptr(),
            parts.borders.len(),
            parts.imprints.ptr(),
            parts.imprints.len(),
            parts.dictionary.ptr(),
            parts.dictionary.len(),
            low,
            high,
            ids.mut_ptr(),
            ids.len(),
            out.mut_ptr(),
        )
    };
    let call = "mgz_guarded_search";
    number(call, got, &answer);
    lent.same(call, "column", column);
    parts.same(call, index);
    let (outcome, found) = answer.clone().unwrap_or((Outcome::Denied, Found::default()));
    let told = [outcome.number(), needed(&answer), found.ids.len() as u64, found.skipped, found.whole, found.compared];
    out.same(call, "out", &told);
    ids.front(call, "ids", &found.ids);
    let after = match &outcome {
        Outcome::EmptyLearnt(filter) => Some(filter),
        _ => None,
    };
    filter_words(call, &lent_words, words, after);
    *words = lent_words.words().to_vec();
    answer
}

pub fn register(minutes: &[i32], space: usize) -> Result<Vec<Entry>, No> {
    let answer = plain::register(minutes, space);
    let lent = Lent::of(minutes);
    let mut words = Space::<u32>::stale(space);
    let mut out = Space::<u64>::stale(3);
    let got = unsafe { mgz_register(lent.ptr(), lent.len(), words.mut_ptr(), words.len(), out.mut_ptr()) };
    let call = "mgz_register";
    number(call, got, &answer);
    lent.same(call, "minutes", minutes);
    let entries = answer.clone().unwrap_or_default();
    let row = answer.as_ref().err().map_or(0, |no| no.row);
    out.same(call, "out", &[needed(&answer), entries.len() as u64, row]);
    let front: Vec<u32> = entries.into_iter().flat_map(Entry::words).collect();
    words.front(call, "words", &front);
    answer
}

pub fn card_write(rows: u64, index: &Index, space: usize) -> Result<Vec<u8>, No> {
    let answer = plain_card::write(rows, index, space);
    let parts = Parts::of(index);
    let mut card = Space::<u8>::stale(space);
    let mut out = Space::<u64>::stale(2);
    let got = unsafe {
        mgz_card_write(
            rows,
            parts.borders.ptr(),
            parts.borders.len(),
            parts.imprints.ptr(),
            parts.imprints.len(),
            parts.dictionary.ptr(),
            parts.dictionary.len(),
            card.mut_ptr(),
            card.len(),
            out.mut_ptr(),
        )
    };
    let call = "mgz_card_write";
    number(call, got, &answer);
    parts.same(call, index);
    let image = answer.as_deref().unwrap_or(&[]);
    out.same(call, "out", &[needed(&answer), image.len() as u64]);
    card.front(call, "card", image);
    answer
}

/// Leaves in the spaces what the library left there.
pub fn card_feed(block: &[u8], state: State, spaces: &mut Index) -> Result<Fed, No> {
    let answer = plain_card::feed(block, state, spaces);
    let lent = Space::of(block);
    let mut parts = Parts::of(spaces);
    let mut out = Space::<u64>::stale(8);
    let got = unsafe {
        mgz_card_feed(
            lent.ptr(),
            lent.len(),
            state.due,
            state.rows,
            state.borders,
            state.imprints,
            state.dictionary,
            parts.borders.mut_ptr(),
            parts.borders.len(),
            parts.imprints.mut_ptr(),
            parts.imprints.len(),
            parts.dictionary.mut_ptr(),
            parts.dictionary.len(),
            out.mut_ptr(),
        )
    };
    let call = "mgz_card_feed";
    number(call, got, &answer);
    lent.same(call, "block", block);
    let due = answer.as_ref().err().map_or(0, |no| no.block);
    let (ended, after) = answer.as_ref().map_or((false, State::default()), |fed| (fed.ended, fed.state));
    out.same(call, "out", &[&[needed(&answer), due, ended as u64], after.words().as_slice()].concat());
    parts.same(call, answer.as_ref().map_or(&*spaces, |fed| &fed.spaces));
    *spaces = Index {
        borders: parts.borders.words().to_vec(),
        imprints: parts.imprints.words().to_vec(),
        dictionary: parts.dictionary.words().to_vec(),
    };
    answer
}
