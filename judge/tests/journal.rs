//! The judge's tests of the journal, in the words of request 6: the bytes of a record, both
//! ways back, each refusal in its order, replay beside the program `account`, and what the
//! generators make.

use std::collections::BTreeSet;
use std::io;

use super::accounts::{counts, met};
use crate::generators::borderaccount::border_account;
use crate::generators::borderjournal::{border_journal, border_records};
use crate::generators::bordermessages::{numbered, CODES, REFUSED, TEXTS};
use crate::generators::histories::messages;
use crate::generators::random::Random;
use crate::generators::requests::{good_fields, kinds_of, requests};
use crate::program::account::{Account, Kind, Message, MESSAGE_MAX, PLACES};
use crate::program::code::{self, parts_of, spell};
use crate::program::journal::journal;
use crate::program::messages::{account as account_program, message_of};
use crate::program::pages::Paged;
use crate::program::record::{read, write, CODE_AT, NUMBER_AT, RECORD};
use crate::program::replay::{program as replay_program, replay, PAGE_MAX};
use crate::program::trials::{request_of, trials, Request};

const ONE: &[u8] = CODES[0];
const TWO: &[u8] = CODES[1];
const BAD: &[u8] = REFUSED[0];

/// Some bytes, and what is written of a message at an offset of them.
fn wrote(page: &[u8], offset: u64, kind: Kind, number: u64, text: &[u8]) -> (u8, Vec<u8>) {
    let mut lent = page.to_vec();
    let reply = write(&mut lent, offset, &Message { kind, number, text });
    (reply.map_or_else(|refusal| refusal.number, |()| 0), lent)
}

/// A record in words as its bytes, which are all of them letters or signs.
fn text(record: &[u8]) -> String {
    String::from_utf8_lossy(record).into_owned()
}

/// Records written out in full, the first also as numbers; each is read back.
pub fn bytes_good() -> bool {
    let first: [u8; 31] = [
        0x2A, 0x2B, 0x41, 0x30, 0x57, 0x37, 0x41, 0x52, 0x43, 0x54, 0x44, 0x48, 0x59, 0x59, 0x52,
        0x41, 0x39, 0x39, 0x41, 0x30, 0x30, 0x30, 0x31, 0x30, 0x30, 0x30, 0x30, 0x30, 0x30, 0x30,
        0x31,
    ];
    let (a, c) = (Kind::Activate, Kind::Cancel);
    let records = [
        (a, 1, TWO, "*+A0W7ARCTDHYYRA99A000100000001"),
        (c, 1, TWO, "*+C0W7ARCTDHYYRA99A000100000001"),
        (a, 31, ONE, "*+A00000000001UY11200000000000Y"),
        (a, 32, ONE, "*+A00000000001UY112000000000010"),
        (c, 33, ONE, "*+C00000000001UY112000000000011"),
        (c, 1_000_000, ONE, "*+C00000000001UY11200000000XGJ0"),
        (a, 34_359_738_367, ONE, "*+A00000000001UY11200000YYYYYYY"),
        (a, 34_359_738_368, ONE, "*+A00000000001UY112000010000000"),
        (a, 1_099_511_627_775, ONE, "*+A00000000001UY1120000YYYYYYYY"),
    ];
    records.iter().all(|&(kind, number, code, record)| {
        let (reply, page) = wrote(&[0; RECORD], 0, kind, number, code);
        let back = matches!(read(record.as_bytes(), 0), Ok(Some(message))
            if (message.kind, message.number, message.text) == (kind, number, code));
        reply == 0 && text(&page) == record && back
    }) && text(&first) == records[0].3
}

/// A code that reading accepts.
fn some_code(random: &mut Random) -> Vec<u8> {
    spell(&parts_of(&good_fields(random))).to_vec()
}

/// What is written is read back, the text in the page itself; what reading accepts is
/// written again as it was; and no byte outside the record's stretch changes.
pub fn round_trip_good() -> bool {
    let mut random = Random::new(31);
    (0..20_000).all(|_| {
        let (before, after) = (random.index(70), random.index(70));
        let noise: Vec<u8> = (0..before + RECORD + after).map(|_| random.byte()).collect();
        let shift = random.below(40);
        let number = 1 + random.below(MESSAGE_MAX >> shift);
        let kind = random.pick(&[Kind::Activate, Kind::Cancel]);
        let code = some_code(&mut random);
        let (reply, page) = wrote(&noise, before as u64, kind, number, &code);
        let Ok(Some(message)) = read(&page, before as u64) else {
            return false;
        };
        let own = &page[before + CODE_AT..before + NUMBER_AT];
        let again = wrote(&noise, before as u64, message.kind, message.number, message.text);
        reply == 0
            && (message.kind, message.number, message.text) == (kind, number, &code[..])
            && message.text.as_ptr() == own.as_ptr()
            && again == (0, page.clone())
            && page[..before] == noise[..before]
            && page[before + RECORD..] == noise[before + RECORD..]
    })
}

/// Every record that reading accepts of the pages that are asked for is written again by its
/// message.
pub fn accepted_good() -> bool {
    let mut accepted = 0;
    let same = asked("look", 6_000).iter().all(|line| {
        let Some(Request::Page(Paged::Look { offset, page })) = request_of(line) else {
            return true;
        };
        let Ok(Some(message)) = read(&page, offset) else {
            return true;
        };
        let at = offset as usize;
        accepted += 1;
        let (kind, number) = (message.kind, message.number);
        wrote(&[0; RECORD], 0, kind, number, message.text).1 == page[at..at + RECORD]
    });
    same && accepted > 1_000
}

/// 41 before 42 before 51, and no byte changes after any of them; an offset past the end
/// is 51 however far.
pub fn writing_order_good() -> bool {
    let page = [b'.'; 62];
    let replies = |number: u64, text: &[u8], offset: u64| {
        let (reply, after) = wrote(&page, offset, Kind::Activate, number, text);
        Some(reply).filter(|_| after == page)
    };
    let far = [32, 61, 62, 63, 1 << 32, u64::MAX - 31, u64::MAX - 30, u64::MAX];
    let mut refused = TEXTS.iter().copied().chain(REFUSED.iter().map(|code| code.as_slice()));
    [0, MESSAGE_MAX + 1, u64::MAX].iter().all(|&number| {
        replies(number, ONE, 0) == Some(41)
            && replies(number, BAD, 0) == Some(41)
            && replies(number, BAD, 62) == Some(41)
            && replies(number, ONE, u64::MAX) == Some(41)
    }) && refused.all(|text| {
        [0, 31, 32, u64::MAX].iter().all(|&offset| replies(1, text, offset) == Some(42))
    }) && far.iter().all(|&offset| {
        replies(1, ONE, offset) == Some(51) && replies(MESSAGE_MAX, ONE, offset) == Some(51)
    }) && replies(1, ONE, 31).is_none()
        && wrote(&page[..30], 0, Kind::Cancel, 1, ONE).0 == 51
        && wrote(&[], 0, Kind::Cancel, 1, ONE).0 == 51
}

/// What reading a page at an offset gives: 0 for a record, 1 at the end, or the refusal.
fn looked(page: &[u8], offset: u64) -> u8 {
    match read(page, offset) {
        Ok(Some(_)) => 0,
        Ok(None) => 1,
        Err(refusal) => refusal.number,
    }
}

/// 52 before 53 before 54, each cause of 54, and the end of every page.
pub fn reading_order_good() -> bool {
    let good = b"*+A00000000001UY112000000000001".as_slice();
    let two = [good, good].concat();
    let marks = ["+*A", "**A", "++A", "* A", "A*+", "**T", "++a"];
    let signed = |start: &str| [start.as_bytes(), &good[CODE_AT..]].concat();
    let coded = |code: &[u8]| [&good[..CODE_AT], code, &good[NUMBER_AT..]].concat();
    let counted = |number: &str| [&good[..NUMBER_AT], number.as_bytes()].concat();
    let numbers =
        ["00000000", "0000000I", "O0000001", "0000000a", "0000 001", "-0000001", "+0000001"];
    let refused = REFUSED.iter().all(|code| looked(&coded(*code), 0) == 54);
    (0..=62).all(|offset| {
        let reply = match offset {
            0 | 31 => 0,
            62 => 1,
            1..=30 => 53,
            _ => 52,
        };
        looked(&two, offset) == reply
    }) && [63, 93, 1 << 32, 1 << 63, u64::MAX - 30, u64::MAX].iter().all(|&o| looked(&two, o) == 52)
        && (1..31).all(|length| looked(&good[..length], 0) == 52)
        && (0..31).all(|length| looked(&two[..31 + length], 31) == if length == 0 { 1 } else { 52 })
        && marks.iter().all(|start| looked(&signed(start), 0) == 53)
        && marks.iter().all(|start| looked(&signed(start)[..30], 0) == 52)
        && ["*+a", "*+c", "*+B", "*+T", "*+ ", "*+\0"].iter().all(|s| looked(&signed(s), 0) == 54)
        && numbers.iter().all(|number| looked(&counted(number), 0) == 54)
        && looked(&coded(b"00000000001UY112000O"), 0) == 54
        && looked(&coded(b"0w7arctdhyyra99a0001"), 0) == 54
        && looked(&coded(TWO), 0) == 0
        && refused
}

/// What the program `replay` prints of a page, or else says.
fn printed(page: &[u8]) -> (bool, String, String) {
    let (mut output, mut errors) = (Vec::new(), Vec::new());
    let good = replay_program(page, &mut output, &mut errors).unwrap_or(false);
    (good, text(&output), text(&errors))
}

/// What the program `journal` writes and says of lines.
fn recorded(lines: &[u8]) -> (bool, Vec<u8>, String) {
    let (mut output, mut errors) = (Vec::new(), Vec::new());
    let good = journal(lines, &mut output, &mut errors).unwrap_or(false);
    (good, output, text(&errors))
}

/// A page by hand with its counts, stopped at each refusal, and the account then: what
/// stands after the stop is not sent.
pub fn stops_good() -> bool {
    let page = [
        "*+C00000000001UY112000000000005", // not active
        "*+A00000000001UY112000000000005", // old
        "*+A00000000001UY112000000000006", // activated, place 0
        "*+A0W7ARCTDHYYRA99A000100000007", // activated, place 1
        "*+A0W7ARCTDHYYRA99A000100000010", // already
        "*+C00000000001UY112000000000011", // cancelled
        "*+A000000XCYYYNEDDE000000000012", // activated, place 0
        "*+A00000000001UY112000000000001", // old
    ]
    .concat();
    let counts = "activated 3\nalready 1\ncancelled 1\nnot active 1\nold 2\nfull 0\n";
    let account = "last 34\ntotal 2\n0 000000XCYYYNEDDE0000\n1 0W7ARCTDHYYRA99A0001\n";
    let stops = [
        ("", "end 248"),
        ("*", "refused 52 248"),
        ("*+A00000000001UY11200000000001", "refused 52 248"),
        (".+A00000000001UY112000000000013", "refused 53 248"),
        ("*+B00000000001UY112000000000013", "refused 54 248"),
        ("*+A00000000001UY112000O00000013", "refused 54 248"),
        ("*+A00000000001UY112000000000000", "refused 54 248"),
        (".+A00000000001UY112000000000013*+A00000000001UY112000000000014", "refused 53 248"),
    ];
    stops.iter().all(|(rest, first)| {
        let wanted = format!("{first}\n{counts}{account}");
        printed(format!("{page}{rest}").as_bytes()) == (true, wanted, String::new())
    }) && printed(b"").1.starts_with("end 0\nactivated 0\n")
        && printed(&page.as_bytes()[1..]).1.starts_with("refused 53 0\nactivated 0\n")
}

/// 43 is counted and gone past: 258 activations, one code cancelled, another in its place.
pub fn full_good() -> bool {
    let activate = |number: usize| format!("A {} {}\n", number + 1, text(&numbered(number)));
    let mut lines: String = (0..PLACES + 2).map(activate).collect();
    lines += &format!("C 300 {}\nA 301 {}\n", text(&numbered(9)), text(&numbered(PLACES)));
    let (all, page, _) = recorded(lines.as_bytes());
    let mut wanted = "end 8060\nactivated 257\nalready 0\ncancelled 1\nnot active 0\nold 0\n\
                      full 2\nlast 301\ntotal 256\n"
        .to_string();
    for at in 0..PLACES {
        let held = if at == 9 { PLACES } else { at };
        wanted += &format!("{at} {}\n", text(&numbered(held)));
    }
    all && printed(&page) == (true, wanted, String::new())
}

/// Pages as long as the program takes them, and a byte longer.
pub fn longest_good() -> bool {
    let record = b"*+A00000000001UY112000000000001";
    let page: Vec<u8> = record.iter().copied().cycle().take(PAGE_MAX + 1).collect();
    let rest = "\nactivated 1\nalready 0\ncancelled 0\nnot active 0\nold 33824\nfull 0\n\
                last 1\ntotal 1\n0 00000000001UY1120000\n";
    let said = "replay: the page has more than 1048576 bytes\n".to_string();
    printed(&page[..PAGE_MAX - 1]) == (true, format!("end 1048575{rest}"), String::new())
        && printed(&page[..PAGE_MAX]) == (true, format!("refused 52 1048575{rest}"), String::new())
        && printed(&page) == (false, String::new(), said)
}

/// Lines by hand: what is recorded, and what is told of the others.
pub fn lines_good() -> bool {
    let lines = [
        "A 5 00000000001UY1120000".to_string(),
        "T".to_string(),
        "A 5 00000000001UY1120000".to_string(),
        String::new(),
        "A 0 00000000001UY1120000".to_string(),
        "A 0 no code".to_string(),
        "A 1099511627776 00000000001UY1120000".to_string(),
        "A 6 ".to_string(),
        "C 4 00000000001UY112000O".to_string(),
        "C 04 00000000001UY1120000".to_string(),
        "x".repeat(24_577),
        "x".repeat(24_576),
        "C 1 0W7ARCTDHYYRA99A0001".to_string(),
    ];
    let page = "*+A00000000001UY112000000000005*+A00000000001UY112000000000005\
                *+C0W7ARCTDHYYRA99A000100000001";
    let said = "2 refused 9 0\n4 refused 9 0\n5 refused 41 0\n6 refused 41 0\n7 refused 41 0\n\
                8 refused 42 0\n9 refused 42 0\n10 refused 9 0\n11 refused 10 0\n12 refused 9 0\n";
    let good = "C 1 0W7ARCTDHYYRA99A0001\n";
    recorded(lines.join("\n").as_bytes()) == (false, page.as_bytes().to_vec(), said.to_string())
        && recorded(good.as_bytes()) == (true, page.as_bytes()[62..].to_vec(), String::new())
        && recorded(b"") == (true, Vec::new(), String::new())
}

/// Requests with their answers by hand.
pub fn asked_good() -> bool {
    let one = "2A2B4130303030303030303030315559313132303030303030303030303031";
    let code = "00000000001UY1120000";
    let fill = "2E".repeat(31);
    let answered = [
        (format!("record A 1 0 {fill} {code}"), format!("0 {one}")),
        (format!("record A 1 1 {fill}00 {code}"), format!("0 2E{one}")),
        (format!("record A 1 0 {fill}0a {code}"), format!("0 {one}0A")),
        (format!("record A 1 1 {fill} {code}"), format!("51 {fill}")),
        (format!("record A 1 0 - {code}"), "51 -".to_string()),
        (format!("record A 0 9 {fill} x"), format!("41 {fill}")),
        (format!("record C 1 9 {fill} "), format!("42 {fill}")),
        (format!("record C 1 9 {fill}"), "?".to_string()),
        (format!("look 0 {one}"), format!("0 A 1 {code}")),
        (format!("look 0 {}", one.to_lowercase()), format!("0 A 1 {code}")),
        (format!("look 31 {one}"), "end".to_string()),
        ("look 0 -".to_string(), "end".to_string()),
        ("look 1 -".to_string(), "52".to_string()),
        (format!("look 18446744073709551615 {one}"), "52".to_string()),
        (format!("look 0 {fill}"), "53".to_string()),
        (format!("look 0 {}", one.replace("2A2B41", "2A2B42")), "54".to_string()),
        (format!("look 0 {one} "), "?".to_string()),
        ("replay -".to_string(), "0 0 0 0 0 0 0 0 0 0 0".to_string()),
        (format!("replay {one}{one}"), "0 62 1 0 0 0 1 0 1 1 1 0 1 0 65937447321600".to_string()),
        (format!("replay {one}2A"), "52 31 1 0 0 0 0 0 1 1 1 0 1 0 65937447321600".to_string()),
        (format!("replay {fill}"), "53 0 0 0 0 0 0 0 0 0 0".to_string()),
        ("replay ".to_string(), "?".to_string()),
        ("replay 2".to_string(), "?".to_string()),
        ("replay 2A2B4".to_string(), "?".to_string()),
        ("replay --".to_string(), "?".to_string()),
        ("replay 2G".to_string(), "?".to_string()),
    ];
    answered.iter().all(|(line, answer)| answers(line.as_bytes()) == [answer.clone()])
}

/// What the trials answer to each line.
fn answers(lines: &[u8]) -> Vec<String> {
    let mut answers = Vec::new();
    // Writing into a Vec does not fail.
    let _ = trials(lines, &mut answers);
    text(&answers).lines().map(str::to_string).collect()
}

/// Over long histories: replay of the journal's page has the counts of the replies of the
/// program `account`, and the account that its messages make one by one.
pub fn history_good() -> bool {
    let (mut fixed, mut random) = (Vec::new(), Vec::new());
    // Writing into a Vec does not fail.
    let _ = border_account(&mut fixed);
    let _ = messages(33, 6_000, &mut random);
    [fixed, random].iter().all(|lines| {
        let mut replies = Vec::new();
        let _ = account_program(lines.as_slice(), &mut replies);
        let replied = counts(&replies, 1);
        let count = |name: &str| replied.get(name).copied().unwrap_or(0) as u64;
        let mut account = Account::empty();
        for message in lines.split(|&byte| byte == b'\n').filter_map(message_of) {
            let _ = account.send(&message);
        }
        let (_, page, said) = recorded(lines);
        let played = replay(&page);
        let told = ["9", "10", "41", "42", "total"].map(count).iter().sum::<u64>();
        played.refusal.is_none()
            && played.offset == page.len() as u64
            && played.account == account
            && played.counts == ["activated", "already", "cancelled", "not", "old", "43"].map(count)
            && played.counts.iter().all(|&count| count > 0)
            && said.lines().count() as u64 == told
    })
}

/// Random requests of a kind.
fn asked(kind: &str, count: u64) -> Vec<Vec<u8>> {
    lines_of(|output| kinds_of(kind).map_or(Ok(()), |share| requests(32, count, &share, output)))
}

fn lines_of(list: impl FnOnce(&mut Vec<u8>) -> io::Result<()>) -> Vec<Vec<u8>> {
    let mut lines = Vec::new();
    // Writing into a Vec does not fail.
    let _ = list(&mut lines);
    lines.split(|&byte| byte == b'\n').map(<[u8]>::to_vec).collect()
}

/// What the requests that begin with a word are answered.
fn answered(lines: &[Vec<u8>], word: &str) -> Vec<String> {
    let of_kind = |line: &&Vec<u8>| line.starts_with(word.as_bytes());
    let asked: Vec<Vec<u8>> = lines.iter().filter(of_kind).cloned().collect();
    answers(&asked.join(&b'\n'))
}

/// Whether just these answers come, by their first words, each so often.
fn comes(answers: &[String], wanted: &str, least: usize) -> bool {
    met(&counts(answers.join("\n").as_bytes(), 0), wanted, least)
}

/// Whether each of the six counts is above 0 in so many answers to replays.
fn counted(answers: &[String], least: usize) -> bool {
    (2..8).all(|at| {
        let above = |answer: &&String| answer.split(' ').nth(at).is_some_and(|word| word != "0");
        answers.iter().filter(above).count() >= least
    })
}

const ANSWERS: [(&str, &str); 3] =
    [("record", "0 41 42 51 ?"), ("look", "0 52 53 54 ? end"), ("replay", "0 52 53 54 ?")];

/// The random requests meet every answer often, and replay every count.
pub fn requests_good() -> bool {
    ANSWERS.iter().all(|(kind, wanted)| {
        let answers = answered(&asked(kind, 2_000), kind);
        comes(&answers, wanted, 25) && (*kind != "replay" || counted(&answers, 50))
    })
}

/// The fixed requests meet every answer and every count; those that are stored are about a
/// hundred and meet them too.
pub fn borders_good() -> bool {
    let (few, all) = (lines_of(border_records), lines_of(border_journal));
    ANSWERS.iter().all(|(kind, wanted)| {
        // A word that only begins like the kind is no request of it.
        let word = format!("{kind} ");
        let (few, all) = (answered(&few, &word), answered(&all, &word));
        let stored = if *kind == "replay" { wanted } else { &wanted.replace(" ?", "")[..] };
        comes(&few, stored, 3)
            && comes(&all, wanted, 10)
            && (*kind != "replay" || counted(&few, 1) && counted(&all, 1))
    }) && (90..130).contains(&few.len())
}

/// By which numbers reading refuses the texts and codes of random requests that are answered
/// 42 and 54.
pub fn codes_good() -> bool {
    let refused = |text: &[u8]| code::read(text).err().map(|refusal| refusal.number);
    let mut written = BTreeSet::new();
    for line in asked("record", 6_000) {
        if let Some(Request::Page(Paged::Record { message, .. })) = request_of(&line) {
            written.extend(refused(message.text));
        }
    }
    let mut looked = BTreeSet::new();
    for line in asked("look", 6_000) {
        if let Some(Request::Page(Paged::Look { offset, page })) = request_of(&line) {
            let record = page.get(offset as usize..).unwrap_or_default();
            if record.len() >= RECORD && record.starts_with(b"*+") {
                looked.extend(refused(&record[CODE_AT..NUMBER_AT]));
            }
        }
    }
    written == (11..=18).collect() && looked == (12..=18).collect()
}
