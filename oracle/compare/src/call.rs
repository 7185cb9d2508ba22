//! A call with its arguments, so that both sides can be handed the same one and a history printed.

use std::fmt;
use std::ops::Range;

use crate::engine::block::{self, Material, Region};
use crate::engine::{Answer, Put, Study};
use crate::fill::Fill;

/// Numbers that a printed history only counts.
#[derive(Clone)]
pub struct Numbers(pub Vec<f64>);

impl fmt::Debug for Numbers {
    fn fmt(&self, f: &mut fmt::Formatter) -> fmt::Result {
        write!(f, "{} numbers", self.0.len())
    }
}

/// Bytes that a printed history only counts.
#[derive(Clone, PartialEq)]
pub struct Bytes(pub Vec<u8>);

impl fmt::Debug for Bytes {
    fn fmt(&self, f: &mut fmt::Formatter) -> fmt::Result {
        write!(f, "{} bytes", self.0.len())
    }
}

/// Cells and corners are i0, i1, j0, j1, k0, k1.
#[derive(Debug, Clone)]
pub enum Call {
    Open {
        sizes: [usize; 3],
        pole_slots: usize,
        constants: usize,
        spacings: [f64; 4],
    },
    PutBox {
        cells: [usize; 6],
        what: Put,
    },
    AddMaterial(Material),
    AssignHalfspace {
        id: u32,
        k0: usize,
    },
    BuildDispersion,
    SetPeriodic([bool; 3]),
    Periodic,
    Conductor,
    Lossy {
        thickness: usize,
        order: usize,
        sigma_max: f64,
    },
    Cpml {
        axes: [bool; 3],
        thickness: usize,
        given: Numbers,
    },
    Slab {
        k0: usize,
        k1: usize,
    },
    Injector {
        k0: usize,
    },
    BoxRegion([usize; 6]),
    Step(f64),
    Run(Vec<f64>),
    ResetFields,
    TotalEnergy,
    PlaneReading(usize),
    SaveLength,
    /// Into room of so many bytes.
    Save(usize),
    Rewind(Bytes),
    /// No call: the caller writes into a store of its own.
    Fill(Fill),
    /// No call: the caller puts another number of steps into the block.
    PutSteps(u32),
    /// No call: the caller names other axes as active, in a block whose layer is on. That is how an
    /// axis of few cells gets an active layer.
    PutActive([bool; 3]),
    /// No call: the caller puts another time into the block, any NaN among them.
    PutTime(f64),
    /// No call: the caller sets the built count, up to the material count. That is how it comes to count
    /// materials of which none has a pole.
    PutBuilt(u8),
    /// No call: the caller puts a region into the block, or takes it away. That is how a slab or an
    /// injector gets corners of its own.
    PutRegion(Region),
    /// No call: the caller puts another set of constants into the block.
    PutConstants(u8),
    /// No call: the caller puts another material into the place of one that stands.
    PutMaterial {
        id: usize,
        material: Material,
    },
}

impl Call {
    /// The call's name, for counting; a box by what is put into it.
    pub fn name(&self) -> String {
        let text = format!("{self:?}");
        let end = text.find(|c: char| !c.is_alphanumeric());
        let what = match self {
            Call::PutBox {
                what: Put::Numbers(_),
                ..
            } => " of numbers",
            Call::PutBox {
                what: Put::Library(_),
                ..
            } => " of a material",
            _ => "",
        };
        text[..end.unwrap_or(text.len())].to_string() + what
    }

    /// Whether it is the caller's own writing, and no call of the engine.
    pub fn is_by_hand(&self) -> bool {
        matches!(
            self,
            Call::Fill(_)
                | Call::PutSteps(_)
                | Call::PutActive(_)
                | Call::PutTime(_)
                | Call::PutBuilt(_)
                | Call::PutRegion(_)
                | Call::PutConstants(_)
                | Call::PutMaterial { .. }
        )
    }

    /// Which bytes of the block it may write where it is accepted: a step the clock, a reading none, any
    /// other call of the engine all.
    pub fn written(&self) -> Range<usize> {
        match self {
            Call::Step(_) | Call::Run(_) => block::TIME..block::CONSTANTS,
            Call::TotalEnergy | Call::PlaneReading(_) | Call::SaveLength | Call::Save(_) => 0..0,
            call if call.is_by_hand() => 0..0,
            _ => 0..block::LENGTH,
        }
    }
}

impl Study {
    /// Hands a call to the engine.
    pub fn apply(&mut self, call: &Call) -> Answer {
        let refusal = match call {
            Call::Open {
                sizes,
                pole_slots,
                constants,
                spacings,
            } => self.open(*sizes, *pole_slots, *constants, *spacings),
            Call::AddMaterial(m) => {
                return self.counted(|study, id| study.add_material(&m.given(), id));
            }
            Call::PutBox { cells, what } => {
                return self.counted(|study, count| study.put_box(*cells, *what, count));
            }
            Call::AssignHalfspace { id, k0 } => self.assign_material_halfspace_z(*id, *k0),
            Call::BuildDispersion => self.build_dispersion(),
            Call::SetPeriodic(axes) => self.set_periodic(*axes),
            Call::Periodic => self.set_boundary_periodic(),
            Call::Conductor => self.set_boundary_conductor(),
            Call::Lossy {
                thickness,
                order,
                sigma_max,
            } => self.set_boundary_lossy(*thickness, *order, *sigma_max),
            Call::Cpml {
                axes,
                thickness,
                given,
            } => {
                return self.counted(|study, active| {
                    study.set_boundary_cpml(*axes, *thickness, &given.0, active)
                });
            }
            Call::Slab { k0, k1 } => self.slab_z(*k0, *k1),
            Call::Injector { k0 } => self.injector_z(*k0),
            Call::BoxRegion(corners) => self.box_region(*corners),
            Call::Step(sample) => self.step(*sample),
            Call::Run(samples) => self.run(samples),
            Call::ResetFields => self.reset_fields(),
            Call::TotalEnergy => return self.read(|study, energy| study.total_energy(energy)),
            Call::PlaneReading(k) => {
                return self.read(|study, reading| study.plane_reading(*k, reading));
            }
            Call::SaveLength => return self.measured(),
            Call::Save(room) => return self.saved(*room),
            Call::Rewind(save) => self.rewind(&save.0),
            by_hand => {
                self.write_by_hand(by_hand);
                0
            }
        };
        Answer::new(refusal, 0.0)
    }

    /// What is no call of the engine, but the caller's own writing.
    pub fn write_by_hand(&mut self, call: &Call) {
        match call {
            Call::Fill(fill) => fill.write(self),
            Call::PutSteps(steps) => self.put_steps(*steps),
            Call::PutActive(axes) => self.put_active(*axes),
            Call::PutTime(time) => self.put_time(*time),
            Call::PutBuilt(count) => self.put_built(*count),
            Call::PutRegion(region) => self.put_region(*region),
            Call::PutConstants(constants) => self.put_constants(*constants),
            Call::PutMaterial { id, material } => self.put_material(*id, material.clone()),
            call => panic!("{call:?} is a call of the engine"),
        }
    }
}
