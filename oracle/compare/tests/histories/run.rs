//! Run A: every call is made, and the calls that stand are kept by document 01's rules.

use crate::rule::{Copies, Tree};
use crate::tally::{ABANDONED, ACROSS, EQUAL_SAVES, LATEST, OTHER, Tally};
use compare::call::{Bytes, Call};
use compare::difference::untouched;
use compare::engine::{Answer, BEFORE, Study};
use compare::{judge, save};

/// An accepted call and what it answered.
pub struct Made {
    pub call: Call,
    pub answer: Answer,
}

/// A save that a call has written.
#[derive(Clone)]
pub struct Saved {
    pub call: usize,
    pub bytes: Vec<u8>,
    pub sizes: [usize; 3],
    pub pole_slots: usize,
    pub constants: u8,
}

#[derive(Default)]
pub struct Run {
    /// What the last accepted call left; none before the first opening.
    pub study: Option<Study>,
    pub made: Vec<Made>,
    pub saves: Vec<Saved>,
    pub copies: Copies,
    tree: Tree,
    /// All calls as they are printed, refused ones too.
    pub told: Vec<String>,
}

/// A call on a copy of what is lent: it gets the answer that is due, and refused it has written nothing.
pub fn made(lent: &Study, call: &Call) -> (Study, Answer) {
    let due = judge::refusal(lent, call);
    let mut after = lent.clone();
    let answer = after.apply(call);
    assert_eq!(answer.refusal, due, "refusal of {call:?}");
    if due != 0 {
        assert!(untouched(lent, &after), "{call:?} refused, and written");
        let empty = answer.room.iter().all(|b| *b == BEFORE);
        assert!(empty && answer.further.to_bits() == 0, "{call:?} refused");
    }
    (after, answer)
}

impl Run {
    /// What stands.
    pub fn study(&self) -> &Study {
        self.study.as_ref().expect("an accepted opening")
    }

    /// Makes a call on what stands or, as refused calls, opening and rewind may be, on something else.
    pub fn make(&mut self, call: Call, lent: Option<Study>, tally: &mut Tally) -> u32 {
        let own = lent.is_none();
        let lent = lent.unwrap_or_else(|| self.study().clone());
        self.told.push(format!("{call:?}"));
        let (after, answer) = made(&lent, &call);
        let refusal = answer.refusal;
        tally.count(&call, refusal);
        if refusal == 0 {
            let free = matches!(call, Call::Open { .. } | Call::Rewind(_));
            assert!(own || free, "{call:?} accepted on a study of nobody");
            self.accepted(call, answer, after, tally);
        } else if let Some(told) = self.told.last_mut() {
            *told += &format!(" refused as {refusal}");
        }
        refusal
    }

    fn accepted(&mut self, call: Call, answer: Answer, after: Study, tally: &mut Tally) {
        let at = self.made.len();
        match &call {
            Call::Rewind(Bytes(bytes)) => {
                self.count_rewind(bytes, tally);
                self.copies.rewind(bytes);
                self.tree.rewind(bytes);
                assert_eq!(self.copies.list, self.tree.list());
            }
            Call::Save(_) => {
                let bytes = self.written(&answer);
                let mut earlier = self.copies.of(&bytes).into_iter();
                let another = earlier.any(|list| *list != self.copies.list);
                tally.meet(EQUAL_SAVES, another.into());
                self.copies.save(at, &bytes);
                self.tree.save(at, &bytes);
            }
            _ => {
                self.copies.join(at);
                self.tree.join(at);
            }
        }
        if !matches!(call, Call::Rewind(_)) {
            self.made.push(Made { call, answer });
        }
        self.study = Some(after);
    }

    /// The bytes that a save has written: what the study writes.
    fn written(&mut self, answer: &Answer) -> Vec<u8> {
        let record = self.study().record().unwrap();
        let bytes = answer.room[..save::length(&record)].to_vec();
        assert!(bytes == save::write(self.study()), "another save");
        self.saves.push(Saved {
            call: self.made.len(),
            bytes: bytes.clone(),
            sizes: record.sizes,
            pole_slots: record.pole_slots.into(),
            constants: record.constants,
        });
        bytes
    }

    fn count_rewind(&self, bytes: &[u8], tally: &mut Tally) {
        let same: Vec<&Saved> = self.saves.iter().filter(|s| s.bytes == bytes).collect();
        let saved = same.last().expect("a save that an earlier call wrote");
        let record = self.study().record().unwrap();
        let stands = same.iter().any(|s| self.copies.list.contains(&s.call));
        tally.meet(ACROSS, (record.sizes != saved.sizes).into());
        tally.meet(ABANDONED, (!stands).into());
        tally.meet(OTHER, (record.constants != saved.constants).into());
        let lists = self.copies.of(bytes);
        tally.meet(LATEST, (lists[0] != lists[lists.len() - 1]).into());
    }

    /// The calls that stand, by both readings of the rules.
    pub fn standing(&self) -> Vec<&Made> {
        assert_eq!(self.copies.list, self.tree.list());
        self.copies.list.iter().map(|at| &self.made[*at]).collect()
    }
}
