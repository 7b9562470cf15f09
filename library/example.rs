//! The library from Rust: document 01's case 1 by both roads, its code read and written again, case 5,
//! refusals, messages to an account, and a journal page of two messages. It prints the lines of example.out,
//! as example.c and example.py do.
mod linenspruce;

use linenspruce::{activate, cancel, code_plain, code_quick, look, read, replay, write};
use linenspruce::{record_activation, record_cancellation};
use linenspruce::{Account, Answer, Fields, Kind, Lent, Reading, Replayed, Reply, CODE, PLACES, RECORD};

/// The square of case 1, a building with unit number 1: latitude, longitude, latitude, ..
const SQUARE: [u32; 8] = [
    294250496, 857567232, 294250496, 857569280, 294252544, 857569280, 294252544, 857567232,
];

/// Case 5, a strip with its chosen cell at one end: it reaches 31 steps from there at
/// scale 27, so that its code has scale 26.
const STRIP: [u32; 8] = [0, 0, 0, 961, 32, 961, 32, 0];

/// A triangle whose third corner lies beyond 180 degrees.
const BEYOND: [u32; 6] = [0, 0, 0, 960, 32, 1327104001];

/// A bow-tie whose first corner is given twice: the first edge that has a length starts at corner 1.
const CROSSED: [u32; 10] = [0, 0, 0, 0, 32, 960, 0, 960, 32, 0];

/// A room. That of 22 is longer than a code, so that it is seen what stays as it was.
fn dots(length: usize) -> Vec<u8> {
    vec![b'.'; length]
}

fn show(what: &str, reply: Reply, room: &[u8]) {
    println!("{what} {} {} [{}]", reply.number, reply.place, String::from_utf8_lossy(room));
}

fn show_quick(length: usize, numbers: &[u32], kind: Kind, number: u32) {
    let mut room = dots(length);
    show("code_quick", code_quick(&mut room, numbers, kind, number), &room);
}

fn show_plain(length: usize, numbers: &[u32], kind: Kind, number: u32) -> Vec<u8> {
    let mut room = dots(length);
    show("code_plain", code_plain(&mut room, numbers, kind, number), &room);
    room
}

fn show_write(length: usize, fields: Fields) {
    let mut room = dots(length);
    show("write", write(&mut room, fields), &room);
}

fn show_reading(told: Reading) {
    let Reading { reply, fields: f, rectangle: r } = told;
    print!("read {} {} lat {} lon {} scale {} ", reply.number, reply.place, f.lat, f.lon, f.scale);
    print!("east {} west {} south {} north {} number {} ", f.east, f.west, f.south, f.north, f.number);
    println!("from west {} to east {} from south {} to north {}", r.west, r.east, r.south, r.north);
}

fn accepted() {
    show_quick(22, &SQUARE, Kind::Building, 1);
    let room = show_plain(22, &SQUARE, Kind::Building, 1);
    let told = read(&room[..CODE]);
    show_reading(told);
    show_write(22, told.fields);
    show_quick(22, &STRIP, Kind::Other, 0);
    show_plain(22, &STRIP, Kind::Other, 0);
}

fn refused_coding() {
    show_quick(22, &[], Kind::Building, 1);
    show_plain(22, &[], Kind::Building, 1);
    show_quick(19, &SQUARE, Kind::Building, 1);
    show_plain(0, &SQUARE, Kind::Building, 1);
    show_quick(22, &SQUARE[..7], Kind::Building, 1);
    show_quick(22, &BEYOND, Kind::Other, 0);
    show_quick(22, &CROSSED, Kind::Other, 0);
    show_plain(22, &CROSSED, Kind::Other, 0);
    show_quick(22, &SQUARE, Kind::Other, 1);
}

fn refused_reading_and_writing() {
    let fields = read(b"0W7ARCTDHYYRA99A0001").fields;
    show_reading(read(b"00000000001UY112000O"));
    show_reading(read(b""));
    show_write(19, fields);
    show_write(0, fields);
    show_write(22, Fields { number: 1048576, ..fields });
}

/// The codes of cases 1 and 5.
const CASE_1: &[u8] = b"0W7ARCTDHYYRA99A0001";
const CASE_5: &[u8] = b"00000000001TH1120000";

fn show_kept(what: &str, answer: Answer, account: &Account, codes: &str) {
    println!("{what} {} last {} total {} [{codes}]", answer as u32, account.last, account.total);
}

fn show_answer(what: &str, answer: Answer, account: &Account) {
    let codes: Vec<[u8; CODE]> = account.codes().collect();
    show_kept(what, answer, account, &String::from_utf8_lossy(&codes.join(&b' ')));
}

fn show_lent(what: &str, lent: Lent, account: &mut Account) {
    account.last = lent.last;
    account.total = lent.total;
    show_answer(what, lent.answer, account);
}

fn show_activate(account: &mut Account, text: &[u8], number: u64) {
    show_answer("activate", account.activate(text, number), account);
}

fn show_cancel(account: &mut Account, text: &[u8], number: u64) {
    show_answer("cancel", account.cancel(text, number), account);
}

/// Activated twice, already, old, cancelled, not active, and the free place used again.
fn messages(account: &mut Account) {
    show_activate(account, CASE_1, 1);
    show_activate(account, CASE_5, 2);
    show_activate(account, CASE_1, 5);
    show_activate(account, CASE_1, 5);
    show_cancel(account, CASE_1, 6);
    show_cancel(account, CASE_1, 7);
    show_activate(account, CASE_1, 8);
}

/// A text with an O, an empty one, message numbers out of range, slices of another length, empty ones, a total
/// of 1 where two codes are active, and a code that is active twice.
fn refused_messages(account: &mut Account) {
    show_activate(account, b"00000000001TH112000O", 9);
    show_cancel(account, b"", 9);
    show_activate(account, CASE_5, 0);
    show_cancel(account, CASE_5, 1099511627776);
    // The account's own arrays have no other length; those that are lent may.
    let Account { high, low, active, last, total } = account;
    let lent = activate(&mut high[..255], low, active, *last, *total, CASE_5, 9);
    show_lent("activate", lent, account);
    let lent = cancel(&mut [], &mut [], &mut [], account.last, account.total, CASE_5, 9);
    show_lent("cancel", lent, account);
    account.total = 1;
    show_cancel(account, CASE_5, 9);
    account.high[2] = account.high[1];
    account.low[2] = account.low[1];
    account.active[2] = 1;
    account.total = 3;
    show_cancel(account, CASE_5, 9);
}

/// Buildings 1 to 257 of case 1's ground: the last finds the account full. The total is what counting finds.
fn full() {
    let (mut account, fields, mut room) = (Account::EMPTY, read(CASE_1).fields, [0; CODE]);
    for number in 1..=PLACES as u32 + 1 {
        write(&mut room, Fields { number, ..fields });
        let answer = account.activate(&room, number.into());
        if answer != Answer::Activated {
            show_kept("activate", answer, &account, &format!("{} codes", account.codes().count()));
        }
    }
}

/// Shows what is at an offset: the code is the page's own bytes.
fn show_look(page: &[u8], offset: usize) {
    let looked = look(page, offset);
    print!("look {} letter {} number {} ", looked.answer as u32, looked.letter, looked.number);
    println!("[{}]", String::from_utf8_lossy(looked.code));
}

fn show_replayed(told: Replayed, account: &Account) {
    let Replayed { refusal, offset, activated, already, cancelled, inactive, old, full, last, total } = told;
    print!("replay {refusal} offset {offset} activated {activated} already {already} ");
    println!("cancelled {cancelled} not active {inactive} old {old} full {full}");
    let codes: Vec<[u8; CODE]> = account.codes().collect();
    let codes = codes.join(&b' ');
    println!("account {refusal} last {last} total {total} [{}]", String::from_utf8_lossy(&codes));
}

/// Two records, a look at each offset that matters, the replay up to the end, then with the two bytes behind it.
fn journal(page: &mut [u8], account: &mut Account) {
    let reply = record_activation(page, 0, CASE_1, 1);
    show("record_activation", reply, page);
    let reply = record_cancellation(page, RECORD, CASE_5, 1099511627775);
    show("record_cancellation", reply, page);
    for offset in [0, RECORD, 2 * RECORD, 2 * RECORD + 2, 2 * RECORD + 3, 1] {
        show_look(page, offset);
    }
    show_replayed(account.replay(&page[..2 * RECORD]), account);
    show_replayed(account.replay(page), account);
}

/// Message numbers out of range, a text with an O, 30 bytes from the offset, an offset past the end, an empty
/// page, then a letter that is no kind, and an array of another length.
fn refused_journal(page: &mut [u8], account: &mut Account) {
    let reply = record_activation(page, 0, CASE_1, 0);
    show("record_activation", reply, page);
    let reply = record_cancellation(page, 0, CASE_1, 1099511627776);
    show("record_cancellation", reply, page);
    let reply = record_activation(page, 0, b"00000000001TH112000O", 1);
    show("record_activation", reply, page);
    let reply = record_activation(page, RECORD + 3, CASE_1, 1);
    show("record_activation", reply, page);
    let reply = record_cancellation(page, usize::MAX, CASE_1, 1);
    show("record_cancellation", reply, page);
    show("record_activation", record_activation(&mut [], 0, CASE_1, 1), page);
    page[2] = b'B';
    show_look(page, 0);
    show_replayed(account.replay(&page[..2 * RECORD]), account);
    let Account { high, low, active, .. } = account;
    let told = replay(&page[..2 * RECORD], &mut high[..255], low, active);
    show_replayed(told, account);
}

fn main() {
    accepted();
    refused_coding();
    refused_reading_and_writing();
    let mut account = Account::EMPTY;
    messages(&mut account);
    refused_messages(&mut account);
    full();
    let mut page = dots(2 * RECORD + 2);
    journal(&mut page, &mut account);
    refused_journal(&mut page, &mut account);
}
