//! Two circuits on one card (02, 2026-06): one list of who owns each slot, and a sender for each of the two groups.
//! Written from the request, its readings and the header.

use crate::receiver::KIND_H4;
use crate::sender::Sender;

pub const GROUPS: u32 = 2;

const DONE: u8 = 0;
const NO_SUCH_SLOT: u8 = 1;
const NOT_ITS_OWN: u8 = 14;
const NOT_IDLE: u8 = 15;

pub struct Card {
    /// The group that owns each slot.
    owners: Vec<Option<u32>>,
    groups: [Sender; GROUPS as usize],
}

impl Card {
    /// A card of so many slots that nobody owns, or the answer that refuses its count. To refuse a first epoch above 255
    /// is left to the caller, who has to look at lengths before that.
    pub fn start(count: u32, first_epochs: [u32; 2]) -> Result<Card, u8> {
        Card::start_as(KIND_H4, count, first_epochs)
    }

    /// The same with groups of a kind (request 2026-01).
    pub fn start_as(kind: u32, count: u32, first_epochs: [u32; 2]) -> Result<Card, u8> {
        let groups = [Sender::start_as(kind, count, first_epochs[0])?, Sender::start_as(kind, count, first_epochs[1])?];
        Ok(Card { owners: vec![None; count as usize], groups })
    }

    /// The card of a refused start.
    pub fn empty() -> Card {
        Card { owners: Vec::new(), groups: [Sender::empty(), Sender::empty()] }
    }

    /// A group's sender, or the answer to a group that is none.
    pub fn of(&mut self, group: u32) -> Result<&mut Sender, u8> {
        self.groups.get_mut(group as usize).ok_or(NO_SUCH_SLOT)
    }

    /// Who owns a slot of a group, or the answer where there is no such group or slot.
    fn owner(&mut self, group: u32, slot: u32) -> Result<&mut Option<u32>, u8> {
        if group >= GROUPS {
            return Err(NO_SUCH_SLOT);
        }
        self.owners.get_mut(slot as usize).ok_or(NO_SUCH_SLOT)
    }

    /// The sender of a slot's group, where the slot is the group's own.
    pub fn own(&mut self, group: u32, slot: u32) -> Result<&mut Sender, u8> {
        if *self.owner(group, slot)? != Some(group) {
            return Err(NOT_ITS_OWN);
        }
        self.of(group)
    }

    pub fn claim(&mut self, group: u32, slot: u32) -> u8 {
        match self.owner(group, slot) {
            Err(answer) => answer,
            Ok(Some(_)) => NOT_ITS_OWN,
            Ok(nobody) => {
                *nobody = Some(group);
                DONE
            }
        }
    }

    pub fn release(&mut self, group: u32, slot: u32) -> u8 {
        match self.own(group, slot) {
            Err(answer) => answer,
            Ok(sender) if !sender.table.is_idle(slot) => NOT_IDLE,
            Ok(_) => {
                self.owners[slot as usize] = None;
                DONE
            }
        }
    }

    /// Which slots a group owns, as the header lays it out: 64 bytes, 1 or 0.
    pub fn owned(&self, group: u32) -> Vec<u8> {
        (0..64).map(|slot| u8::from(self.owners.get(slot).copied().flatten() == Some(group))).collect()
    }
}

/// The answer of a call on what was found, or the answer for which nothing was.
pub fn answered(found: Result<&mut Sender, u8>, call: impl FnOnce(&mut Sender) -> u8) -> u8 {
    found.map_or_else(|answer| answer, call)
}
