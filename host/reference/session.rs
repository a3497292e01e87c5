//! The text session over the sender's table. Written from 01 and its readings alone, without sight of the proved code and
//! its definitions.

use crate::packet::{ADD, DNU, DONE, EOS, NORM};
use crate::sender::{Board, Table};
use crate::spoken;

const LINE_MOST: usize = 80;
const MALFORMED: u8 = 13;

/// An input line that is not malformed.
enum Line {
    Size(u32),
    Add(u32),
    Remove(u32),
    Report { epoch: u32, mst: u32, rs_ack: bool },
    Lapse,
    Board,
}

/// One to three decimal digits, by value.
fn number(field: &[u8]) -> Option<u32> {
    let fits = (1..=3).contains(&field.len()) && field.iter().all(u8::is_ascii_digit);
    fits.then(|| field.iter().fold(0, |value, digit| 10 * value + u32::from(digit - b'0')))
}

/// A number that is at most so large.
fn number_to(most: u32, field: &[u8]) -> Option<u32> {
    number(field).filter(|value| *value <= most)
}

/// Two hex digits, either case.
fn two_hex_digits(field: &[u8]) -> Option<u32> {
    let digit = |byte: u8| char::from(byte).to_digit(16);
    match *field {
        [high, low] => Some(16 * digit(high)? + digit(low)?),
        _ => None,
    }
}

/// What a line says, or None if it is malformed.
fn line(bytes: &[u8]) -> Option<Line> {
    if bytes.len() > LINE_MOST {
        return None;
    }
    let fields: Vec<&[u8]> = bytes.split(|b| *b == b'\t').collect();
    match fields[..] {
        [b"size", count] => number(count).map(Line::Size),
        [b"add", slot] => number(slot).map(Line::Add),
        [b"remove", slot] => number(slot).map(Line::Remove),
        [b"report", epoch, mst, rs_ack] => {
            let (epoch, mst, rs_ack) = (number_to(255, epoch)?, two_hex_digits(mst)?, number_to(1, rs_ack)?);
            Some(Line::Report { epoch, mst, rs_ack: rs_ack == 1 })
        }
        [b"lapse"] => Some(Line::Lapse),
        [b"board"] => Some(Line::Board),
        _ => None,
    }
}

/// Starts afresh, unless the size is refused.
fn size(table: &mut Table, count: u32) -> u8 {
    match Table::start(count) {
        Ok(fresh) => {
            *table = fresh;
            DONE
        }
        Err(answer) => answer,
    }
}

fn name(word: u32) -> &'static str {
    match word {
        ADD => "ADD",
        NORM => "NORM",
        EOS => "EOS",
        DNU => "DNU",
        _ => "IDLE",
    }
}

fn shown(board: &Board) -> String {
    let slots = board.rows.iter().enumerate();
    let lines: String = slots.map(|(slot, row)| format!("slot\t{}\t{}\t{}\n", slot, name(row.word), row.number)).collect();
    lines + &format!("wait\t{}\n", u8::from(board.wait))
}

/// What one line puts out.
fn answered(table: &mut Table, bytes: &[u8]) -> String {
    let answer = match line(bytes) {
        None => MALFORMED,
        Some(Line::Board) => return shown(&table.board()),
        Some(Line::Size(count)) => size(table, count),
        Some(Line::Add(slot)) => table.add(slot),
        Some(Line::Remove(slot)) => table.remove(slot),
        Some(Line::Report { epoch, mst, rs_ack }) => table.report(epoch, mst, rs_ack),
        Some(Line::Lapse) => table.lapse(),
    };
    format!("answer\t{}\n", answer)
}

/// The lines of an input. The last one may lack its end; behind an end there is no further line.
fn lines(input: &[u8]) -> Vec<&[u8]> {
    let mut lines: Vec<&[u8]> = input.split(|b| *b == b'\n').collect();
    if lines.last().map_or(false, |l| l.is_empty()) {
        lines.pop();
    }
    lines
}

/// The whole output of a session.
pub fn run(input: &[u8]) -> String {
    let mut table = Table::default();
    lines(input).iter().map(|l| answered(&mut table, l)).collect()
}

/// A refused line in words: its place, what it was, and why.
fn refused(at: usize, bytes: &[u8], answer: u8) -> String {
    let (what, why) = match (line(bytes), answer) {
        (Some(Line::Size(count)), _) => (format!("size\t{}\t", count), "not 1 to 64"),
        (Some(Line::Add(slot)), 1) => (format!("add\tslot\t{}\t", slot), "no such slot"),
        (Some(Line::Add(slot)), 3) => (format!("add\tslot\t{}\t", slot), "a wait is open"),
        (Some(Line::Add(slot)), _) => (format!("add\tslot\t{}\t", slot), "in use already"),
        (Some(Line::Remove(slot)), 1) => (format!("remove\tslot\t{}\t", slot), "no such slot"),
        (Some(Line::Remove(slot)), 3) => (format!("remove\tslot\t{}\t", slot), "a wait is open"),
        (Some(Line::Remove(slot)), _) => (format!("remove\tslot\t{}\t", slot), "not in use"),
        (Some(Line::Lapse), _) => ("lapse\t".to_string(), "no wait is open"),
        _ => (String::new(), "malformed"),
    };
    format!("answer\t{}\tline\t{}\t{}{}\n", answer, at, what, why)
}

/// The whole output for a listener: `epoch` tells what has changed since the one before, a size that she begins anew, and
/// of other lines only the refused ones are answered. Slots are told each by itself, or in runs.
pub fn told(input: &[u8], in_runs: bool) -> String {
    let mut table = Table::default();
    let mut heard = table.board().bytes();
    let mut output = String::new();
    for (place, bytes) in lines(input).into_iter().enumerate() {
        if bytes == b"epoch" {
            let now = table.board().bytes();
            output += &spoken::told(&heard, &now, in_runs).expect("boards of one group");
            heard = now;
            continue;
        }
        let said = answered(&mut table, bytes);
        let answer = said.strip_prefix("answer\t").and_then(|number| number.trim_end().parse().ok());
        match answer {
            Some(DONE) if bytes.starts_with(b"size") => {
                heard = table.board().bytes();
                output += &format!("size\t{}\n", table.count());
            }
            Some(DONE) => {}
            Some(answer) => output += &refused(place + 1, bytes, answer),
            None if in_runs => output += &spoken::whole(&table.board().bytes()).expect("a board"),
            None => output += &said,
        }
    }
    output
}
