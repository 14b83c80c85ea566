//! `card write FILE IMAGE`: the index of FILE's readings, one a line, as an image for the card.
//! `card read IMAGE`: what the image holds, or which block is bad and why. Status 0 if it is good, 1 if it is bad.
//!
//! What is good and what is bad is the library's answer, block by block; this program only says it in words. `./card` builds and starts it.
use miguzoryane::card::{self, CardReader, State, BLOCK, EDITION, PAYLOAD};
use miguzoryane::{Error, Index, IndexBuf, BORDERS_AT_MOST, LINES_AT_MOST, ROWS_AT_MOST};
use std::fs::File;
use std::io::{self, BufRead, BufReader, Read, Write};
use std::path::{Path, PathBuf};
use std::process::ExitCode;

/// What keeps the program from answering: status 2.
type Stopped = String;

fn main() -> ExitCode {
    let words: Vec<PathBuf> = std::env::args_os().skip(1).map(PathBuf::from).collect();
    let words: Vec<&Path> = words.iter().map(PathBuf::as_path).collect();
    let answer = match words[..] {
        [call, file, image] if call == Path::new("write") => write(file, image).map(Ok),
        [call, image] if call == Path::new("read") => read(image),
        _ => Err("usage: card write FILE IMAGE, or card read IMAGE".to_string()),
    };
    match answer {
        Ok(Ok(counts)) => say(&counts, 0),
        Ok(Err(bad)) => say(&bad, 1),
        Err(stopped) => {
            eprintln!("card: {stopped}");
            ExitCode::from(2)
        }
    }
}

fn say(text: &str, status: u8) -> ExitCode {
    match writeln!(io::stdout(), "{text}") {
        Ok(()) => ExitCode::from(status),
        Err(_) => ExitCode::from(2),
    }
}

fn stopped(name: &Path, error: io::Error) -> Stopped {
    format!("{}: {error}", name.display())
}

fn counted(rows: usize, index: Index<'_>, blocks: usize) -> String {
    let (borders, imprints, dictionary) = (index.borders.len(), index.imprints.len(), index.dictionary.len());
    format!("rows {rows}, borders {borders}, imprints {imprints}, dictionary words {dictionary}, blocks {blocks}")
}

// ---------------------------------------------------------------- write

fn write(file: &Path, image: &Path) -> Result<String, Stopped> {
    spare(image)?;
    let readings = readings(file)?;
    let index = IndexBuf::build(&readings).map_err(|error| format!("{}: {error}", file.display()))?;
    let bytes = card::image(readings.len(), index.as_index()).map_err(|error| format!("{}: {error}", file.display()))?;
    put(&bytes, image).map_err(|error| stopped(image, error))?;
    Ok(counted(readings.len(), index.as_index(), bytes.len() / BLOCK))
}

/// A file that is there is written over only if it begins like an image: it might be somebody's log.
fn spare(image: &Path) -> Result<(), Stopped> {
    if !image.exists() {
        return Ok(());
    }
    let mut head = Vec::new();
    let read = File::open(image).and_then(|file| file.take(8).read_to_end(&mut head));
    read.map_err(|error| stopped(image, error))?;
    let begins = [0u32, EDITION].iter().flat_map(|word| word.to_le_bytes()).collect::<Vec<u8>>();
    if !image.is_file() || !head.is_empty() && head != begins {
        let name = image.display();
        return Err(format!(
            "{name} is there and is no image, so it is not written over (the image of its readings: ./card write {name} IMAGE)"
        ));
    }
    Ok(())
}

/// The image takes its name when it is whole.
fn put(bytes: &[u8], image: &Path) -> io::Result<()> {
    let mut new = image.as_os_str().to_os_string();
    new.push(".new");
    std::fs::write(&new, bytes).and_then(|()| std::fs::rename(&new, image)).inspect_err(|_| _ = std::fs::remove_file(&new))
}

/// One a line, as `tools/readings` takes them.
fn readings(file: &Path) -> Result<Vec<i32>, Stopped> {
    let mut lines = BufReader::new(File::open(file).map_err(|error| stopped(file, error))?);
    let (mut readings, mut line) = (Vec::new(), Vec::new());
    while lines.read_until(b'\n', &mut line).map_err(|error| stopped(file, error))? != 0 {
        let place = || format!("{}, line {}", file.display(), readings.len() + 1);
        let value = reading(&line).map_err(|why| format!("{}: {why}", place()))?;
        readings.push(value);
        line.clear();
    }
    if ROWS_AT_MOST < readings.len() {
        return Err(format!("{}: {} readings, and a column has at most {ROWS_AT_MOST}", file.display(), readings.len()));
    }
    Ok(readings)
}

fn reading(line: &[u8]) -> Result<i32, String> {
    let text = String::from_utf8_lossy(line);
    let text = text.trim();
    let digits = text.strip_prefix(['+', '-']).unwrap_or(text);
    if !(1..=20).contains(&digits.len()) || !digits.bytes().all(|byte| byte.is_ascii_digit()) {
        let begin: String = text.chars().take(40).collect();
        return Err(format!("not a whole number: '{begin}'"));
    }
    text.parse().map_err(|_| format!("out of range, -2147483648 to 2147483647: {text}"))
}

// ---------------------------------------------------------------- read

/// What the image holds, or what is bad about it.
fn read(image: &Path) -> Result<Result<String, String>, Stopped> {
    let mut file = BufReader::new(File::open(image).map_err(|error| stopped(image, error))?);
    let mut reader = CardReader::new();
    loop {
        let mut block = Vec::new();
        file.by_ref().take(BLOCK as u64).read_to_end(&mut block).map_err(|error| stopped(image, error))?;
        if block.is_empty() && reader.ended() {
            break;
        }
        if let Err(error) = reader.feed(&block) {
            let more = io::copy(&mut file, &mut io::sink()).map_err(|error| stopped(image, error))?;
            return Ok(Err(in_words(error, &reader, &block, more)));
        }
    }
    let blocks = reader.due();
    let index = reader.finish().map_err(|error| error.to_string())?;
    Ok(Ok(counted(index.covered(), index.as_index(), blocks)))
}

/// How many blocks the header promises.
fn promised(state: State) -> u128 {
    (16 + 4 * state.borders as u128 + 8 * state.imprints as u128 + 4 * state.dictionary as u128).div_ceil(PAYLOAD as u128)
}

/// Why the reader has refused this block; so many more bytes come after it.
fn in_words(error: Error, reader: &CardReader, block: &[u8], more: u64) -> String {
    let (state, due) = (reader.state(), reader.due());
    let name = if due == 0 { "block 0".to_string() } else { format!("block {due} (of 0 to {})", promised(state) - 1) };
    let none = |why: String| format!("the blocks are sound, but they hold no index: {why}");
    // The last block alone is refused for what all of them hold.
    let told = if due == 0 && block.len() == BLOCK { header(block) } else { state };
    match error {
        Error::BadBlock { .. } if reader.ended() => {
            let bytes = match block.len() as u64 + more {
                1 => "1 byte".to_string(),
                bytes => format!("{bytes} bytes"),
            };
            format!("behind the last block, block {}, the image goes on for {bytes}, and no block {due} is due", due - 1)
        }
        Error::BadBlock { .. } if block.is_empty() => format!("{name} is missing: the image ends before it"),
        Error::BadBlock { .. } => format!("{name} {}", fault_of(block, state)),
        Error::OtherEdition { .. } if block.iter().all(|&byte| byte == 0) => {
            format!("{name} is blank, all zeros: its edition is 0, and edition {EDITION} is read here")
        }
        Error::OtherEdition { .. } => {
            format!("{name} is of another edition: {}, and edition {EDITION} is read here", four(block, 4))
        }
        Error::SpaceShort { .. } => {
            let State { borders, imprints, dictionary, .. } = told;
            let most = format!("and an index has at most {BORDERS_AT_MOST}, {LINES_AT_MOST} and {LINES_AT_MOST}");
            format!("{name} is bad: its header claims {borders} borders, {imprints} imprints and {dictionary} dictionary words, {most}")
        }
        Error::BadBorders => none("their borders are not strictly rising".to_string()),
        Error::NotAnIndex => none(format!("their imprints and dictionary words are none of a column of {} rows", told.rows)),
        other => format!("{name} is bad: {other}"),
    }
}

fn two(block: &[u8], at: usize) -> usize {
    u16::from_le_bytes([block[at], block[at + 1]]) as usize
}

fn four(block: &[u8], at: usize) -> u32 {
    u32::from_le_bytes([block[at], block[at + 1], block[at + 2], block[at + 3]])
}

/// The counts that block 0 tells.
fn header(block: &[u8]) -> State {
    let [rows, borders, imprints, dictionary] = [12, 16, 20, 24].map(|at| four(block, at) as u64);
    State { due: 0, rows, borders, imprints, dictionary }
}

fn check_fits(block: &[u8]) -> bool {
    let (mut a, mut b) = (0, 0);
    for at in (0..508).step_by(2) {
        a = (a + two(block, at)) % 65_535;
        b = (b + a) % 65_535;
    }
    [two(block, 508), two(block, 510)] == [a, b]
}

/// Which of the tests of a block that was refused as bad has failed, in the library's order.
fn fault_of(block: &[u8], state: State) -> String {
    if block.len() != BLOCK {
        return format!("is cut short: the image ends after {} of its {BLOCK} bytes", block.len());
    }
    if !check_fits(block) {
        return "is damaged: its check does not fit its bytes".to_string();
    }
    let number = four(block, 0);
    if number as u64 != state.due {
        return format!("is missing or out of place: block {number} stands where it is due");
    }
    let told = if state.due == 0 { header(block) } else { state };
    let last = state.due as u128 + 1 == promised(told);
    let left = 16 + 4 * told.borders + 8 * told.imprints + 4 * told.dictionary - PAYLOAD as u64 * told.due;
    let length = if last { left } else { PAYLOAD as u64 };
    if two(block, 8) as u64 != length {
        return format!("is bad: its payload length is {}, and by the header's counts it is {length}", two(block, 8));
    }
    if two(block, 10) != 0 {
        return "is bad: its two zero bytes are not zero".to_string();
    }
    "is bad: its filler is not zero".to_string()
}
