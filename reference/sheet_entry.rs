//! The run of a sheet in the C interface, and what a call of it must leave.
use crate::draw::Random;
use crate::sheet_run::Printout;
use crate::slices::{Cell, Slice};

pub type RunSheet = unsafe extern "C" fn(*const u8, usize, *mut u8, usize, *mut usize) -> u64;

extern "C" {
    pub fn rig_run_sheet(
        sheet: *const u8,
        sheet_length: usize,
        out: *mut u8,
        out_length: usize,
        length: *mut usize,
    ) -> u64;
}

/// The most bytes of a printout: "rows 514", 514 rows of 4 amounts, "ordered".
pub const MOST: usize = 9 + 514 * 90 + 25;

/// Cells that no printout writes, and neighbours differ.
fn unwritten(length: usize) -> Vec<u8> {
    (0..length).map(|i| 128 + (i % 127) as u8).collect()
}

fn first_difference<T: Cell>(slice: &Slice<T>, answer: &[T]) -> Option<String> {
    slice.differs(answer).map(|(at, wanted, found)| {
        format!(
            "{} of {} cells, at {at}: expected {wanted:x}, received {found:x}",
            slice.name, slice.len
        )
    })
}

/// The first difference of one call with an output of this length.
fn call(
    entry: RunSheet,
    random: &mut Random,
    bytes: &[u8],
    expected: &Printout,
    room: usize,
) -> Option<String> {
    let sheet = Slice::holding("sheet", bytes, random);
    let mut out = Slice::holding("out", &unwritten(room), random);
    let mut length = Slice::<u64>::filled("length", 1, random);
    let reply = unsafe {
        entry(
            sheet.lend(),
            sheet.len,
            out.lend_mut(),
            out.len,
            length.lend_mut().cast(),
        )
    };
    let number = expected.reply(room);
    // Without room for the text nothing is written.
    let text = if room < expected.text.len() {
        &[][..]
    } else {
        expected.text.as_bytes()
    };
    if reply != number {
        return Some(format!("number: expected {number}, received {reply}"));
    }
    first_difference(&length, &[text.len() as u64])
        .or_else(|| first_difference(&out, text))
        .or_else(|| first_difference(&sheet, &[]))
        .map(|text| format!("{room} bytes lent; {text}"))
}

/// The first difference between what the entry does with a sheet and the
/// printout: with outputs of the exact length, one byte shorter, longer, and
/// now and then of other lengths, up to that of the longest printout.
pub fn difference(
    entry: RunSheet,
    random: &mut Random,
    bytes: &[u8],
    expected: &Printout,
    most: usize,
) -> Option<String> {
    let exact = expected.text.len();
    assert!(exact > 0 && exact <= most, "a printout of {exact} bytes");
    let mut rooms = vec![exact, exact - 1, exact + 1 + random.below(40)];
    match random.below(16) {
        0 => rooms.push(0),
        1..=2 => rooms.push(random.below(exact)),
        3 => rooms.push(most),
        _ => {}
    }
    rooms
        .into_iter()
        .find_map(|room| call(entry, random, bytes, expected, room))
}

/// A line of stored sheets: bytes, number, words, and the text with / for each
/// line feed.
pub fn line(bytes: &[u8], printout: &Printout) -> String {
    let word = |part: &[u8]| {
        let mut eight = [0; 8];
        eight[..part.len()].copy_from_slice(part);
        format!("{:x}", u64::from_le_bytes(eight))
    };
    let words: Vec<String> = bytes.chunks(8).map(word).collect();
    format!(
        "{:x};{:x};{};{}",
        bytes.len(),
        printout.number,
        words.join(" "),
        printout.text.replace('\n', "/")
    )
}
