//! Linenspruce for Rust: codes of units by two roads, reading a code, writing one from its fields,
//! messages to an account of entitlements, and the journal page of such messages.
//! The replies and answers are those of the tables in linenspruce.h. Every slice and every number is
//! answered, empty slices among them. For Rust 1.63 and later, edition 2021, on x86-64 Linux.

/// A code's bytes.
pub const CODE: usize = 20;

/// An account's places.
pub const PLACES: usize = 256;

/// A record's bytes, and where its code starts.
pub const RECORD: usize = 31;
pub const RECORD_CODE: usize = 3;

/// The letters of a code, each at the place that is its number.
const LETTERS: &[u8; 32] = b"0123456789ABCDEFGHJKLMNPQRTUVWXY";

/// The number and the place of a reply. Number 0 is acceptance.
#[repr(C)]
#[derive(Clone, Copy, Debug, PartialEq, Eq)]
pub struct Reply {
    pub number: u32,
    pub place: u32,
}

/// The kind of a unit.
#[derive(Clone, Copy, Debug, PartialEq, Eq)]
pub enum Kind {
    Building,
    Other,
}

/// The fields of a code: its reference, scale, the spans E, W, S and N, and the unit number.
#[repr(C)]
#[derive(Clone, Copy, Debug, PartialEq, Eq)]
pub struct Fields {
    pub lat: u32,
    pub lon: u32,
    pub scale: u32,
    pub east: u32,
    pub west: u32,
    pub south: u32,
    pub north: u32,
    pub number: u32,
}

/// A rectangle of ground by its sides: west and east are longitudes, south and north latitudes.
#[repr(C)]
#[derive(Clone, Copy, Debug, PartialEq, Eq)]
pub struct Rectangle {
    pub west: u32,
    pub east: u32,
    pub south: u32,
    pub north: u32,
}

/// What reading answers. After a refusal every field and every side is 0.
#[repr(C)]
#[derive(Clone, Copy, Debug, PartialEq, Eq)]
pub struct Reading {
    pub reply: Reply,
    pub fields: Fields,
    pub rectangle: Rectangle,
}

/// What a message is answered, by its number. The last four are refusals.
#[derive(Clone, Copy, Debug, PartialEq, Eq)]
pub enum Answer {
    Activated = 1,
    Already = 2,
    Cancelled = 3,
    NotActive = 4,
    Old = 5,
    Account = 40,
    Number = 41,
    Code = 42,
    Full = 43,
}

/// What a message to a lent account is answered, and the account's last number and total afterwards.
#[derive(Clone, Copy, Debug, PartialEq, Eq)]
pub struct Lent {
    pub answer: Answer,
    pub last: u64,
    pub total: u64,
}

/// An account of entitlements: three arrays, the last number and the total, as linenspruce.h has them. How
/// many codes are active is asked by its `total`, which every message keeps true.
#[derive(Clone, Debug, PartialEq, Eq)]
pub struct Account {
    pub high: [u64; PLACES],
    pub low: [u64; PLACES],
    pub active: [u64; PLACES],
    pub last: u64,
    pub total: u64,
}

/// What a look finds at an offset of a page, by its number: a record, the page's end, or a refusal: past the
/// end or cut short, the mark wrong, the content wrong.
#[derive(Clone, Copy, Debug, PartialEq, Eq)]
pub enum Found {
    Record = 0,
    End = 1,
    Cut = 52,
    Mark = 53,
    Content = 54,
}

/// What a look answers. Of a record it tells the letter, `A` or `C`, the message number, and the code as the
/// page's own twenty bytes; where there is none these are 0, 0 and no bytes.
#[derive(Clone, Copy, Debug, PartialEq, Eq)]
pub struct Looked<'a> {
    pub answer: Found,
    pub letter: u8,
    pub number: u64,
    pub code: &'a [u8],
}

/// What replay answers: 0 at the page's end or a refusal, the offset where it stopped, how often each answer
/// came, and the last number and the total of the account.
#[repr(C)]
#[derive(Clone, Copy, Debug, PartialEq, Eq)]
pub struct Replayed {
    pub refusal: u32,
    pub offset: usize,
    pub activated: u64,
    pub already: u64,
    pub cancelled: u64,
    pub inactive: u64,
    pub old: u64,
    pub full: u64,
    pub last: u64,
    pub total: u64,
}

/// The functions as C declares them.
mod c {
    use super::{Fields, Reading, Replayed, Reply};

    #[repr(C)]
    pub struct Kind {
        pub letter: u8,
    }

    #[repr(C)]
    pub struct Lent {
        pub answer: u32,
        pub last: u64,
        pub total: u64,
    }

    #[repr(C)]
    pub struct Looked {
        pub answer: u32,
        pub letter: u32,
        pub number: u64,
    }

    #[link(name = "linenspruce", kind = "static")]
    extern "C" {
        pub fn linenspruce_code_quick(
            room: *mut u8,
            room_length: usize,
            numbers: *const u32,
            numbers_count: usize,
            kind: Kind,
            number: u32,
        ) -> Reply;
        pub fn linenspruce_code_plain(
            room: *mut u8,
            room_length: usize,
            numbers: *const u32,
            numbers_count: usize,
            kind: Kind,
            number: u32,
        ) -> Reply;
        pub fn linenspruce_read(text: *const u8, text_length: usize) -> Reading;
        pub fn linenspruce_write(room: *mut u8, room_length: usize, fields: Fields) -> Reply;
        pub fn linenspruce_activate(
            high: *mut u64,
            high_length: usize,
            low: *mut u64,
            low_length: usize,
            active: *mut u64,
            active_length: usize,
            last: u64,
            total: u64,
            text: *const u8,
            text_length: usize,
            number: u64,
        ) -> Lent;
        pub fn linenspruce_cancel(
            high: *mut u64,
            high_length: usize,
            low: *mut u64,
            low_length: usize,
            active: *mut u64,
            active_length: usize,
            last: u64,
            total: u64,
            text: *const u8,
            text_length: usize,
            number: u64,
        ) -> Lent;
        pub fn linenspruce_record_activation(
            page: *mut u8,
            page_length: usize,
            offset: usize,
            text: *const u8,
            text_length: usize,
            number: u64,
        ) -> Reply;
        pub fn linenspruce_record_cancellation(
            page: *mut u8,
            page_length: usize,
            offset: usize,
            text: *const u8,
            text_length: usize,
            number: u64,
        ) -> Reply;
        pub fn linenspruce_look(page: *const u8, page_length: usize, offset: usize) -> Looked;
        pub fn linenspruce_replay(
            page: *const u8,
            page_length: usize,
            high: *mut u64,
            high_length: usize,
            low: *mut u64,
            low_length: usize,
            active: *mut u64,
            active_length: usize,
        ) -> Replayed;
    }
}

impl Kind {
    fn letter(self) -> c::Kind {
        match self {
            Kind::Building => c::Kind { letter: b'B' },
            Kind::Other => c::Kind { letter: b'F' },
        }
    }
}

impl c::Lent {
    fn told(self) -> Lent {
        let answer = match self.answer {
            1 => Answer::Activated,
            2 => Answer::Already,
            3 => Answer::Cancelled,
            4 => Answer::NotActive,
            5 => Answer::Old,
            40 => Answer::Account,
            41 => Answer::Number,
            42 => Answer::Code,
            43 => Answer::Full,
            other => unreachable!("a message is answered {other}"),
        };
        Lent { answer, last: self.last, total: self.total }
    }
}

// In each call below the pointers and lengths are those of slices, which live until it returns; a
// `&mut` slice shares no byte with another, and an empty one has a pointer that is not followed.

/// Codes a unit by the quick road: writes bytes 0 to 19 of the room, or refuses (1 to 7 and 31) and
/// writes nothing. The numbers are the corners' latitude, longitude, latitude, ..
pub fn code_quick(room: &mut [u8], numbers: &[u32], kind: Kind, number: u32) -> Reply {
    let kind = kind.letter();
    unsafe {
        c::linenspruce_code_quick(room.as_mut_ptr(), room.len(), numbers.as_ptr(), numbers.len(), kind, number)
    }
}

/// The same answer by the plain road. It is for comparison on small units: with a large thin one it
/// takes very long.
pub fn code_plain(room: &mut [u8], numbers: &[u32], kind: Kind, number: u32) -> Reply {
    let kind = kind.letter();
    unsafe {
        c::linenspruce_code_plain(room.as_mut_ptr(), room.len(), numbers.as_ptr(), numbers.len(), kind, number)
    }
}

/// Reads a code: its fields and its rectangle, or a refusal (11 to 18).
pub fn read(text: &[u8]) -> Reading {
    unsafe { c::linenspruce_read(text.as_ptr(), text.len()) }
}

/// Writes the code of fields into bytes 0 to 19 of the room, or refuses (21 to 25) and writes nothing.
pub fn write(room: &mut [u8], fields: Fields) -> Reply {
    unsafe { c::linenspruce_write(room.as_mut_ptr(), room.len(), fields) }
}

/// Activates a code in an account that is lent as three slices, its last number and its total. Slices of
/// another length than 256 are answered too: 40.
pub fn activate(
    high: &mut [u64],
    low: &mut [u64],
    active: &mut [u64],
    last: u64,
    total: u64,
    text: &[u8],
    number: u64,
) -> Lent {
    let lent = unsafe {
        c::linenspruce_activate(
            high.as_mut_ptr(),
            high.len(),
            low.as_mut_ptr(),
            low.len(),
            active.as_mut_ptr(),
            active.len(),
            last,
            total,
            text.as_ptr(),
            text.len(),
            number,
        )
    };
    lent.told()
}

/// Cancels a code in a lent account, likewise.
pub fn cancel(
    high: &mut [u64],
    low: &mut [u64],
    active: &mut [u64],
    last: u64,
    total: u64,
    text: &[u8],
    number: u64,
) -> Lent {
    let lent = unsafe {
        c::linenspruce_cancel(
            high.as_mut_ptr(),
            high.len(),
            low.as_mut_ptr(),
            low.len(),
            active.as_mut_ptr(),
            active.len(),
            last,
            total,
            text.as_ptr(),
            text.len(),
            number,
        )
    };
    lent.told()
}

/// Writes the record of an activation, 31 bytes, at an offset of a page, or refuses (41, 42 and 51) and
/// writes nothing.
pub fn record_activation(page: &mut [u8], offset: usize, text: &[u8], number: u64) -> Reply {
    let (length, text_length) = (page.len(), text.len());
    unsafe {
        c::linenspruce_record_activation(page.as_mut_ptr(), length, offset, text.as_ptr(), text_length, number)
    }
}

/// Writes the record of a cancellation, likewise.
pub fn record_cancellation(page: &mut [u8], offset: usize, text: &[u8], number: u64) -> Reply {
    let (length, text_length) = (page.len(), text.len());
    unsafe {
        c::linenspruce_record_cancellation(page.as_mut_ptr(), length, offset, text.as_ptr(), text_length, number)
    }
}

/// Looks at an offset of a page: a record, the end, or a refusal (52 to 54).
pub fn look(page: &[u8], offset: usize) -> Looked<'_> {
    let told = unsafe { c::linenspruce_look(page.as_ptr(), page.len(), offset) };
    let answer = match told.answer {
        0 => Found::Record,
        1 => Found::End,
        52 => Found::Cut,
        53 => Found::Mark,
        54 => Found::Content,
        other => unreachable!("a look is answered {other}"),
    };
    let code = match answer {
        Found::Record => &page[offset + RECORD_CODE..][..CODE],
        _ => &[],
    };
    Looked { answer, letter: told.letter as u8, number: told.number, code }
}

/// Replays a page from an empty account into three slices. Slices of another length than 256 are answered
/// too: 40.
pub fn replay(page: &[u8], high: &mut [u64], low: &mut [u64], active: &mut [u64]) -> Replayed {
    unsafe {
        c::linenspruce_replay(
            page.as_ptr(),
            page.len(),
            high.as_mut_ptr(),
            high.len(),
            low.as_mut_ptr(),
            low.len(),
            active.as_mut_ptr(),
            active.len(),
        )
    }
}

impl Account {
    pub const EMPTY: Account =
        Account { high: [0; PLACES], low: [0; PLACES], active: [0; PLACES], last: 0, total: 0 };

    /// Activates a code.
    pub fn activate(&mut self, text: &[u8], number: u64) -> Answer {
        let Account { high, low, active, last, total } = self;
        let lent = activate(high, low, active, *last, *total, text, number);
        self.keep(lent)
    }

    /// Cancels a code.
    pub fn cancel(&mut self, text: &[u8], number: u64) -> Answer {
        let Account { high, low, active, last, total } = self;
        let lent = cancel(high, low, active, *last, *total, text, number);
        self.keep(lent)
    }

    /// Becomes the account that the messages of a page leave from empty.
    pub fn replay(&mut self, page: &[u8]) -> Replayed {
        let told = replay(page, &mut self.high, &mut self.low, &mut self.active);
        self.last = told.last;
        self.total = told.total;
        told
    }

    fn keep(&mut self, lent: Lent) -> Answer {
        self.last = lent.last;
        self.total = lent.total;
        lent.answer
    }

    /// The active codes in the order of their places. In an account that is refused 40 they may be no
    /// codes.
    pub fn codes(&self) -> impl Iterator<Item = [u8; CODE]> + '_ {
        let code = move |place: usize| letters(self.high[place], self.low[place]);
        (0..PLACES).filter(move |&place| self.active[place] != 0).map(code)
    }
}

/// The letters of a code from its halves, ten each.
fn letters(high: u64, low: u64) -> [u8; CODE] {
    let letter = |half: u64, place: usize| LETTERS[(half >> (45 - 5 * place) & 31) as usize];
    let mut code = [0; CODE];
    for place in 0..10 {
        code[place] = letter(high, place);
        code[10 + place] = letter(low, place);
    }
    code
}
