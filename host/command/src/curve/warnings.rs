//! What makes a curve doubtful, each with what to change.

mod head;
mod layer;
mod run;

use crate::curve::Curve;
use crate::curve::plan::{Plan, Point};
use crate::curve::study::Reading;
use cichowiej::Layer;
use std::fmt;

/// The kinds, each with the name by which a person allows it.
macro_rules! kinds {
    ($($kind:ident $name:literal,)*) => {
        /// What a warning is about, in the order in which they are told.
        #[derive(Debug, Clone, Copy, PartialEq, Eq, PartialOrd, Ord)]
        pub enum Kind {
            $($kind,)*
        }

        impl Kind {
            pub const ALL: [Self; [$($name),*].len()] = [$(Self::$kind,)*];

            pub fn name(self) -> &'static str {
                match self {
                    $(Self::$kind => $name,)*
                }
            }
        }
    };
}

kinds! {
    NoLayer "no-layer",
    WeakLayer "weak-layer",
    LowFrequency "low-frequency",
    InLayer "in-layer",
    NoNumber "no-number",
    Courant "courant",
    Steps "steps",
    Endless "endless",
    Gain "gain",
    Phase "phase",
    Faint "faint",
    Coarse "coarse",
    Walls "walls",
    Moistures "moistures",
    SlowPole "slow-pole",
    FirstOrder "first-order",
    WaveBox "wave-box",
    PartSheet "part-sheet",
    Boxes "boxes",
}

use Kind::*;

impl Kind {
    pub fn named(name: &str) -> Option<Self> {
        Self::ALL.into_iter().find(|kind| kind.name() == name)
    }

    /// What is no number is nobody's curve.
    pub fn may_be_allowed(self) -> bool {
        self != NoNumber
    }
}

/// Something that makes a curve doubtful.
#[derive(Debug, Clone, PartialEq)]
pub struct Warning {
    pub kind: Kind,
    /// What it is, and what to change.
    pub text: String,
    /// Whether whoever asked for the curve has allowed it; it is told all the same.
    pub allowed: bool,
}

impl fmt::Display for Warning {
    fn fmt(&self, f: &mut fmt::Formatter) -> fmt::Result {
        let allowed = if self.allowed { ", allowed" } else { "" };
        write!(f, "warning ({}{allowed}): {}", self.kind.name(), self.text)
    }
}

/// Marks those of these kinds as allowed.
pub fn allow(warnings: &mut [Warning], kinds: &[Kind]) {
    warnings.iter_mut().for_each(|warning| warning.allowed = kinds.contains(&warning.kind));
}

/// What is found in a plan alone.
const OF_PLAN: [(Kind, fn(&Plan) -> Option<String>); 13] = [
    (NoLayer, layer::absent),
    (WeakLayer, layer::weak),
    (LowFrequency, layer::shifted),
    (Courant, run::unstable),
    (Endless, run::endless),
    (Faint, run::faint),
    (Coarse, head::coarse),
    (Walls, head::walled),
    (Moistures, head::moistures),
    (SlowPole, head::slow_pole),
    (FirstOrder, head::first_order),
    (WaveBox, head::boxed),
    (PartSheet, head::partial),
];

fn collected(found: impl Iterator<Item = (Kind, Option<String>)>) -> Vec<Warning> {
    found.filter_map(|(kind, text)| Some(Warning { kind, text: text?, allowed: false })).collect()
}

/// What is known before the first step, given where the layer works.
pub fn before(plan: &Plan, layer: Option<Layer>) -> Vec<Warning> {
    let of_plan = OF_PLAN.iter().map(|(kind, look)| (*kind, look(plan)));
    let mut all = collected(of_plan.chain([(InLayer, layer::inside(plan, layer)), (Boxes, head::boxes(plan))]));
    all.sort_by_key(|warning| warning.kind);
    all
}

/// What one study's run shows by itself.
pub fn of_reading(plan: &Plan, point: &Point, reading: &Reading) -> Vec<Warning> {
    collected([(NoNumber, run::no_reading(reading)), (Steps, run::unfinished(plan, &[(point, reading)]))].into_iter())
}

/// All of them.
pub fn all(plan: &Plan, readings: &[Reading], curve: &Curve) -> Vec<Warning> {
    let studies: Vec<run::Studied> = plan.points.iter().zip(readings).collect();
    let of_run = [
        (NoNumber, run::no_number(curve)),
        (Steps, run::unfinished(plan, &studies)),
        (Gain, run::gained(plan, curve)),
        (Phase, run::turning(curve)),
    ];
    let mut all = before(plan, curve.layer);
    all.extend(collected(of_run.into_iter()));
    all.sort_by_key(|warning| warning.kind);
    all
}
