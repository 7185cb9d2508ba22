//! What the comparison does with a study beyond the engine's calls.

use super::block::{Material, Record, Region};
use super::*;
use crate::agree;

/// The refusal's number, and what the call answers further (an id, axes, a reading, a length; else
/// 0). Of a save it has the room too, as the call left it.
#[derive(Debug, Clone)]
pub struct Answer {
    pub refusal: u32,
    pub further: f64,
    pub room: Vec<u8>,
}

impl Answer {
    pub fn new(refusal: u32, further: f64) -> Self {
        let room = Vec::new();
        Self {
            refusal,
            further,
            room,
        }
    }

    pub fn agrees(&self, other: &Self) -> bool {
        self.refusal == other.refusal
            && agree(self.further, other.further)
            && self.room == other.room
    }
}

/// What stands in the room for a further answer before a call.
pub const BEFORE: u8 = 77;

impl Study {
    /// A block and stores of the lengths that the sizes and pole slots ask for, not yet opened.
    pub fn lent(sizes: [usize; 3], pole_slots: usize) -> Self {
        let block = vec![0xA5; block::LENGTH];
        Self::with_lengths(block, sizes, pole_slots, f64::NAN, u32::MAX)
    }

    /// The record in the block.
    pub fn record(&self) -> Option<Record> {
        Record::read(&self.block)
    }

    /// Puts another number of steps into the block.
    pub fn put_steps(&mut self, steps: u32) {
        self.block[block::STEPS..block::CONSTANTS].copy_from_slice(&steps.to_le_bytes());
    }

    /// Puts another set of constants into the block, or a number that names none.
    pub fn put_constants(&mut self, constants: u8) {
        self.block[block::CONSTANTS] = constants;
    }

    /// Names other axes as active in the block.
    pub fn put_active(&mut self, axes: [bool; 3]) {
        self.block[block::ACTIVE..block::ACTIVE + 3].copy_from_slice(&axes.map(u8::from));
    }

    pub fn put_time(&mut self, time: f64) {
        self.put(|record| record.time = time);
    }

    pub fn put_built(&mut self, count: u8) {
        self.put(|record| record.built_count = count);
    }

    pub fn put_region(&mut self, region: Region) {
        self.put(|record| record.region = region);
    }

    pub fn put_material(&mut self, id: usize, material: Material) {
        self.put(|record| record.materials[id] = material);
    }

    /// Changes the record in the block; what else stands there keeps its bits.
    fn put(&mut self, change: impl FnOnce(&mut Record)) {
        let mut record = self.record().unwrap();
        change(&mut record);
        self.block = record.given();
    }

    /// The stores of doubles with their names.
    pub fn stores(&self) -> [(&'static str, &Vec<f64>); 8] {
        [
            ("e", &self.e),
            ("h", &self.h),
            ("media", &self.media),
            ("psi_e", &self.psi_e),
            ("psi_h", &self.psi_h),
            ("tables", &self.tables),
            ("poles", &self.poles),
            ("aux", &self.aux),
        ]
    }

    /// The stores of doubles to be written, in the same order.
    pub fn stores_mut(&mut self) -> [&mut Vec<f64>; 8] {
        [
            &mut self.e,
            &mut self.h,
            &mut self.media,
            &mut self.psi_e,
            &mut self.psi_h,
            &mut self.tables,
            &mut self.poles,
            &mut self.aux,
        ]
    }

    /// A call that answers a number into room for one.
    pub fn counted(&mut self, f: impl FnOnce(&mut Self, &mut [u32]) -> u32) -> Answer {
        let mut room = [BEFORE.into()];
        let refusal = f(self, &mut room);
        Answer::new(refusal, f64::from(room[0]))
    }

    /// A call that reads a number into room for one.
    pub fn read(&self, f: impl FnOnce(&Self, &mut [f64]) -> u32) -> Answer {
        let mut room = [BEFORE.into()];
        let refusal = f(self, &mut room);
        Answer::new(refusal, room[0])
    }

    /// The save's length, in room for one.
    pub fn measured(&self) -> Answer {
        let mut room = [BEFORE.into()];
        let refusal = self.save_length(&mut room);
        Answer::new(refusal, room[0] as f64)
    }

    /// The study saved into room of so many bytes.
    pub fn saved(&self, length: usize) -> Answer {
        let mut room = vec![BEFORE; length];
        let refusal = self.save(&mut room);
        Answer {
            refusal,
            further: 0.0,
            room,
        }
    }
}
