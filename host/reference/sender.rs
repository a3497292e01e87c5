//! The sender: its table of members, and the packets and payload that go out by it. Written from 01, its readings and
//! the header alone, without sight of the proved code and its definitions.
//!
//! Members stand in a list. A member's number is its place in that list, and is kept nowhere else.

use crate::packet::{self, Fields, ADD, DNU, DONE, EOS, FIELD_REFUSED, IDLE, LENGTH_WRONG, NORM};
use crate::payload::PAYLOAD_MOST;
use crate::receiver::{clock, KIND_H4, KIND_VC12, PAYLOAD_VC12};

pub const SLOTS_MOST: u32 = 64;
const NO_SUCH_SLOT: u8 = 1;
const NOT_NOW: u8 = 2;
const WAIT_OPEN: u8 = 3;
const OUT_OF_RANGE: u8 = 4;

/// What a slot is that is not IDLE.
#[derive(Clone, Copy, PartialEq, Debug)]
enum Kind {
    Add,
    Active,
    Dnu,
}

#[derive(Clone, Copy, Debug)]
struct Member {
    slot: u32,
    kind: Kind,
}

/// The table. By default it is that of an empty group.
#[derive(Clone, Debug, Default)]
pub struct Table {
    /// H4 or VC-12 (request 2026-01).
    kind: u32,
    count: u32,
    /// The slots that are not IDLE. The first has number 0, the next one 1. Those in ADD stand last.
    members: Vec<Member>,
    /// The remembered RS-Ack.
    heard: bool,
    /// While a wait is open, the RS-Ack that closes it.
    awaited: Option<bool>,
}

/// What an MST says of a number, if it speaks of it: true for OK. Its first bit is the highest, and speaks of the lowest
/// number. Of H4 that is 8 x (epoch mod 32), of VC-12 "8 x (count mod 8)".
fn said(kind: u32, epoch: u32, mst: u32, number: usize) -> Option<bool> {
    let first = 8 * (epoch as usize % usize::from(clock(kind).mst_epochs));
    let place = number.checked_sub(first).filter(|place| *place < 8)?;
    Some(mst & (0x80 >> place) == 0)
}

impl Table {
    /// A group of so many slots, all IDLE, or the answer that refuses it.
    pub fn start(count: u32) -> Result<Table, u8> {
        Table::start_as(KIND_H4, count)
    }

    pub fn start_as(kind: u32, count: u32) -> Result<Table, u8> {
        if count == 0 || count > SLOTS_MOST || ![KIND_H4, KIND_VC12].contains(&kind) {
            return Err(OUT_OF_RANGE);
        }
        Ok(Table { kind, count, ..Table::default() })
    }

    /// How many slots there are.
    pub fn count(&self) -> u32 {
        self.count
    }

    /// Whether a wait is open.
    pub fn waits(&self) -> bool {
        self.awaited.is_some()
    }

    /// The place of a slot in the list, if it is not IDLE.
    fn number(&self, slot: u32) -> Option<usize> {
        self.members.iter().position(|m| m.slot == slot)
    }

    pub fn is_idle(&self, slot: u32) -> bool {
        self.number(slot).is_none()
    }

    /// What is answered to add and remove before the slot's own state is looked at.
    fn refusal(&self, slot: u32) -> Option<u8> {
        if slot >= self.count {
            return Some(NO_SUCH_SLOT);
        }
        self.awaited.map(|_| WAIT_OPEN)
    }

    /// The next turn of RS-Ack closes it.
    fn open_wait(&mut self) {
        self.awaited = Some(!self.heard);
    }

    /// The slot goes to the end of the list: it has the next free number.
    pub fn add(&mut self, slot: u32) -> u8 {
        match (self.refusal(slot), self.number(slot)) {
            (Some(answer), _) => answer,
            (None, Some(_)) => NOT_NOW,
            (None, None) => {
                self.members.push(Member { slot, kind: Kind::Add });
                DONE
            }
        }
    }

    /// Those behind the one that is taken out move up: their numbers fall by one.
    pub fn remove(&mut self, slot: u32) -> u8 {
        match (self.refusal(slot), self.number(slot)) {
            (Some(answer), _) => answer,
            (None, None) => NOT_NOW,
            (None, Some(number)) => {
                self.members.remove(number);
                self.open_wait();
                DONE
            }
        }
    }

    /// Closes the wait. The remembered RS-Ack stays.
    pub fn lapse(&mut self) -> u8 {
        match self.awaited.take() {
            Some(_) => DONE,
            None => NOT_NOW,
        }
    }

    /// Takes a report; epoch and MST are bytes. With a wait open the MST is ignored, also where this closes the wait.
    pub fn report(&mut self, epoch: u32, mst: u32, rs_ack: bool) -> u8 {
        match self.awaited {
            Some(awaited) if awaited != rs_ack => {}
            Some(_) => {
                self.heard = rs_ack;
                self.awaited = None;
            }
            None => {
                self.heard = rs_ack;
                self.act_on(epoch, mst);
            }
        }
        DONE
    }

    /// Acts on an MST. Every number is that of the list as it stood on arrival, since a new list is made.
    fn act_on(&mut self, epoch: u32, mst: u32) {
        let (mut settled, mut added, mut left) = (Vec::new(), Vec::new(), Vec::new());
        for (number, member) in self.members.iter().enumerate() {
            let as_kind = |kind| Member { kind, ..*member };
            match (member.kind, said(self.kind, epoch, mst, number)) {
                (Kind::Add, Some(true)) => added.push(as_kind(Kind::Active)),
                (Kind::Add, _) => left.push(*member),
                (Kind::Active, Some(false)) => settled.push(as_kind(Kind::Dnu)),
                (Kind::Dnu, Some(true)) => settled.push(as_kind(Kind::Active)),
                _ => settled.push(*member),
            }
        }
        if !added.is_empty() {
            self.open_wait();
        }
        self.members = [settled, added, left].concat();
    }

    /// What the table shows now. The last active member of the list has EOS.
    pub fn board(&self) -> Board {
        let idle = clock(self.kind).idle;
        let mut rows = vec![Row { word: IDLE, number: idle.into() }; self.count as usize];
        let last_active = self.members.iter().rposition(|m| m.kind == Kind::Active);
        for (number, member) in self.members.iter().enumerate() {
            let word = match member.kind {
                Kind::Add => ADD,
                Kind::Dnu => DNU,
                Kind::Active if last_active == Some(number) => EOS,
                Kind::Active => NORM,
            };
            rows[member.slot as usize] = Row { word, number: number as u32 };
        }
        Board { rows, idle, wait: self.waits() }
    }
}

/// The control word and the number of a slot.
#[derive(Clone, Copy, PartialEq, Debug)]
pub struct Row {
    pub word: u32,
    pub number: u32,
}

/// What a table showed at one moment: a row for each slot, and whether a wait was open.
#[derive(Clone, PartialEq, Debug)]
pub struct Board {
    pub rows: Vec<Row>,
    /// The number that IDLE shows: 255, of VC-12 "63".
    pub idle: u8,
    pub wait: bool,
}

impl Board {
    /// The slots that carry payload by this board, by rank.
    fn ranked(&self) -> Vec<usize> {
        let carries = |slot: &usize| [NORM, EOS].contains(&self.rows[*slot].word);
        let mut slots: Vec<usize> = (0..self.rows.len()).filter(carries).collect();
        slots.sort_by_key(|slot| self.rows[*slot].number);
        slots
    }

    /// The board as the header lays it out: count, wait, then word and number of 64 slots, IDLE past the count.
    pub fn bytes(&self) -> Vec<u8> {
        let mut bytes = vec![self.rows.len() as u8, u8::from(self.wait)];
        for row in &self.rows {
            bytes.extend([row.word as u8, row.number as u8]);
        }
        for _ in self.rows.len()..SLOTS_MOST as usize {
            bytes.extend([IDLE as u8, self.idle]);
        }
        bytes
    }
}

/// What the caller lends for all packets of an epoch.
#[derive(Clone, Copy, Debug)]
struct Lent {
    gid: u32,
    mst: u32,
    rs_ack: u32,
}

#[derive(Clone, Debug)]
pub struct Sender {
    pub table: Table,
    /// The board at this epoch's start. Its packets go out in this epoch.
    pub going: Board,
    /// The board at the start before. Its packets rule this epoch's payload.
    ruling: Board,
    /// This epoch's number; before the first start, the number that the first epoch will have.
    pub epoch: u32,
    /// None before the first start.
    lent: Option<Lent>,
}

impl Sender {
    /// A sender with no epoch started, or the answer that refuses its count. To refuse a first epoch above 255, of VC-12 above 31, is
    /// left to the caller, who has to look at lengths before that.
    pub fn start(count: u32, first_epoch: u32) -> Result<Sender, u8> {
        Sender::start_as(KIND_H4, count, first_epoch)
    }

    pub fn start_as(kind: u32, count: u32, first_epoch: u32) -> Result<Sender, u8> {
        Ok(Sender::of(Table::start_as(kind, count)?, first_epoch))
    }

    /// The sender of an empty group, which is one of H4 whatever kind was refused.
    pub fn empty() -> Sender {
        Sender::of(Table::default(), 0)
    }

    fn of(table: Table, epoch: u32) -> Sender {
        let idle = table.board();
        Sender { table, going: idle.clone(), ruling: idle, epoch, lent: None }
    }

    /// Starts an epoch. The first one is ruled by the board of the start, on which all are IDLE, so that X is 0.
    pub fn start_epoch(&mut self, gid: u32, mst: u32, rs_ack: u32) -> u8 {
        if gid > 1 || mst > 255 || rs_ack > 1 {
            return FIELD_REFUSED;
        }
        if self.lent.is_some() {
            self.epoch = clock(self.table.kind).next_epoch(self.epoch as u8).into();
        }
        self.lent = Some(Lent { gid, mst, rs_ack });
        self.ruling = std::mem::replace(&mut self.going, self.table.board());
        DONE
    }

    /// The slots that carry payload in this epoch, by rank.
    pub fn ranked(&self) -> Vec<usize> {
        self.ruling.ranked()
    }

    /// The packet of a slot in this epoch.
    pub fn packet(&self, slot: u32, h4: &mut [u8]) -> u8 {
        if slot >= self.table.count {
            return NO_SUCH_SLOT;
        }
        if h4.len() != clock(self.table.kind).frames {
            return LENGTH_WRONG;
        }
        match self.lent {
            None => NOT_NOW,
            Some(Lent { gid, mst, rs_ack }) => {
                let Row { word, number } = self.going.rows[slot as usize];
                let fields = Fields { epoch: self.epoch, word, gid, mst, rs_ack, sq: number, reserved: 0 };
                if self.table.kind == KIND_VC12 {
                    packet::write_vc12(&fields, h4)
                } else {
                    packet::write(&fields, h4)
                }
            }
        }
    }

    /// The payload of a slot for one group frame of this epoch: zeros if it has no rank.
    pub fn payload(&self, slot: u32, p: u32, frame: &[u8], member: &mut [u8]) -> u8 {
        if slot >= self.table.count {
            return NO_SUCH_SLOT;
        }
        if p == 0 || p > PAYLOAD_MOST || self.table.kind == KIND_VC12 && p != PAYLOAD_VC12 {
            return OUT_OF_RANGE;
        }
        let ranked = self.ranked();
        if frame.len() != ranked.len() * p as usize || member.len() != p as usize {
            return LENGTH_WRONG;
        }
        if self.lent.is_none() {
            return NOT_NOW;
        }
        member.fill(0);
        if let Some(rank) = ranked.iter().position(|s| *s == slot as usize) {
            for (k, byte) in frame.iter().enumerate().filter(|(k, _)| k % ranked.len() == rank) {
                member[k / ranked.len()] = *byte;
            }
        }
        DONE
    }

    /// What rules this epoch's payload, as the header lays it out: count, whether an epoch has started, its number, X,
    /// and the ranks of 64 slots, 255 for none.
    pub fn ranks(&self) -> Vec<u8> {
        let ranked = self.ranked();
        let mut bytes = vec![self.table.count as u8, u8::from(self.lent.is_some()), self.epoch as u8, ranked.len() as u8];
        for slot in 0..SLOTS_MOST as usize {
            bytes.push(ranked.iter().position(|s| *s == slot).map_or(255, |rank| rank as u8));
        }
        bytes
    }

    /// What a host that was handed a sender asks, as the header lays it out: kind, slots, the next epoch to start, whether a wait is open, and
    /// the remembered RS-Ack.
    pub fn settings(&self) -> Vec<u8> {
        let next = if self.lent.is_some() { clock(self.table.kind).next_epoch(self.epoch as u8) } else { self.epoch as u8 };
        vec![self.table.kind as u8, self.table.count as u8, next, u8::from(self.table.waits()), u8::from(self.table.heard)]
    }
}
