//! Which calls of a run stand. Document 01's rules are written twice, in two ways, so that a slip in one
//! of them is seen. Calls are named by their places among the run's accepted calls, rewinds apart.

use std::collections::BTreeMap;

/// The list itself, and the copies that saves have kept of it.
#[derive(Default)]
pub struct Copies {
    pub list: Vec<usize>,
    kept: Vec<(Vec<u8>, Vec<usize>)>,
}

impl Copies {
    pub fn join(&mut self, call: usize) {
        self.list.push(call);
    }

    /// A save joins the list once its copy is kept.
    pub fn save(&mut self, call: usize, bytes: &[u8]) {
        self.kept.push((bytes.to_vec(), self.list.clone()));
        self.join(call);
    }

    /// The latest copy with these bytes is put back.
    pub fn rewind(&mut self, bytes: &[u8]) {
        let latest = self.of(bytes).pop();
        self.list = latest.expect("a save that an earlier call wrote").clone();
    }

    /// The copies that saves with these bytes have kept, the earliest first.
    pub fn of(&self, bytes: &[u8]) -> Vec<&Vec<usize>> {
        let same = self.kept.iter().filter(|(saved, _)| saved == bytes);
        same.map(|(_, list)| list).collect()
    }
}

/// Of each call the one that stood last when it joined, and where each save's bytes lead back to.
#[derive(Default)]
pub struct Tree {
    before: BTreeMap<usize, Option<usize>>,
    saved: BTreeMap<Vec<u8>, Option<usize>>,
    last: Option<usize>,
}

impl Tree {
    pub fn join(&mut self, call: usize) {
        self.before.insert(call, self.last);
        self.last = Some(call);
    }

    pub fn save(&mut self, call: usize, bytes: &[u8]) {
        self.saved.insert(bytes.to_vec(), self.last);
        self.join(call);
    }

    pub fn rewind(&mut self, bytes: &[u8]) {
        self.last = self.saved[bytes];
    }

    pub fn list(&self) -> Vec<usize> {
        let mut list = Vec::new();
        let mut next = self.last;
        while let Some(call) = next {
            list.insert(0, call);
            next = self.before[&call];
        }
        list
    }
}
