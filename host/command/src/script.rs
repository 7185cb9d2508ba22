//! A study as a text of calls, one a line (`cichowiej run`).

mod files;
mod parse;
mod statement;
mod words;

use crate::cli::interrupt::Interrupt;
use crate::cli::{Failure, Input};
use crate::curve::told;
use crate::digest::sha256;
use crate::pole::BadPole;
use crate::standing::study_from;
use crate::text::plain;
use cichowiej::{CellBox, Material, MaterialId, Put, Refusal, Source, Study, write_whole};
use parse::{Lined, parse};
use statement::{Edge, Statement, Wave};
use std::collections::BTreeMap;
use std::io::{self, Write};
use std::path::Path;

/// Where an answer goes, a line with its end.
pub type Out<'a> = &'a mut dyn FnMut(&str) -> Result<(), Failure>;

/// A script that was read: every line is understood and every file was looked for. Its tables are read, so that a pipe may be one.
pub struct Script {
    name: String,
    statements: Vec<Lined<Statement>>,
}

impl Script {
    pub fn parse(input: &Input) -> Result<Self, String> {
        let at = |(line, message): Lined<String>| located(&input.name, line, &message);
        let statements = parse(&input.text).map_err(at)?;
        files::check(&input.path, &statements).map_err(at)?;
        Ok(Self { name: input.name.clone(), statements })
    }

    /// The first line that begins another study.
    pub fn begins_anew(&self) -> Option<usize> {
        let found = self.statements.iter().find(|(_, statement)| statement.begins_anew());
        found.map(|(line, _)| *line)
    }

    /// Makes the calls on a study, or on the one that the script opens; gives the study as it stands at the end.
    pub fn run(&self, study: Option<Study>, hex: bool, out: Out, interrupt: &Interrupt) -> Result<Option<Study>, Failure> {
        let mut session = Session { study, names: BTreeMap::new(), hex, interrupt, unbuilt: false, told: false };
        for (line, statement) in &self.statements {
            // a write that was brought to its end may have been told to be the last
            interrupt.check()?;
            for doubt in session.doubts(statement) {
                // answers alone go to standard output
                let _ = writeln!(io::stderr(), "warning: {}", plain(&located(&self.name, *line, &doubt)));
            }
            let made = session.make(statement).map_err(|trouble| self.failure(trouble, *line, statement))?;
            made.map_or(Ok(()), |answer| out(&format!("{answer}\n")))?;
        }
        Ok(session.study)
    }

    fn failure(&self, trouble: Trouble, line: usize, statement: &Statement) -> Failure {
        let (line, message) = match trouble {
            Trouble::Interrupted => return Failure::Interrupted,
            Trouble::Refused(refusal) => (statement.line_of(refusal, line), format!("refused as {refusal}")),
            Trouble::Pole(lined) => lined,
            Trouble::Other(message) => (line, message),
        };
        located(&self.name, line, &message).into()
    }
}

fn located(name: &str, line: usize, message: &str) -> String {
    format!("{name}:{line}: {message}")
}

/// Why a call came to nothing.
enum Trouble {
    Refused(Refusal),
    /// A material's pole, which has a line of its own.
    Pole(Lined<String>),
    Other(String),
    Interrupted,
}

impl From<Refusal> for Trouble {
    fn from(refusal: Refusal) -> Self {
        Self::Refused(refusal)
    }
}

impl From<Failure> for Trouble {
    fn from(failure: Failure) -> Self {
        match failure {
            Failure::Message(message) => Self::Other(message),
            Failure::Interrupted => Self::Interrupted,
        }
    }
}

impl From<String> for Trouble {
    fn from(message: String) -> Self {
        Self::Other(message)
    }
}

/// What is stepped between two looks at Ctrl-C: a part of a second, on the largest grid too.
const CELL_STEPS_AT_ONCE: usize = 1 << 24;
const MOST_STEPS_AT_ONCE: usize = 4096;

struct Session<'a> {
    study: Option<Study>,
    /// The script's names for materials.
    names: BTreeMap<String, MaterialId>,
    hex: bool,
    interrupt: &'a Interrupt,
    /// Whether a material with poles was added and nothing built since.
    unbuilt: bool,
    /// Whether it was told that this study's time step is too long.
    told: bool,
}

impl Session<'_> {
    /// What is no fault and mostly a slip.
    fn doubts(&mut self, statement: &Statement) -> Vec<String> {
        match statement {
            Statement::Run { source, .. } => return self.doubts_of_run(source.is_some()),
            Statement::Material { material, .. } => self.unbuilt |= !material.poles.is_empty(),
            Statement::Build => self.unbuilt = false,
            _ if statement.begins_anew() => (self.unbuilt, self.told) = (false, false),
            _ => {}
        }
        vec![]
    }

    /// The time step is judged by axes, wave and materials as they are at this run; it is told once a study.
    fn doubts_of_run(&mut self, has_source: bool) -> Vec<String> {
        let Some(study) = &self.study else { return vec![] };
        let (courant, limit) = (study.grid().courant_number(), study.courant_limit());
        let grows = !self.told && courant > limit;
        self.told |= grows;
        let doubts = [
            grows.then(|| format!("the Courant number is {courant:.3}: above {limit:.3} the field can grow without end")),
            self.unbuilt.then(|| "a material's poles act after build only".into()),
            (has_source && !study.has_region()).then(|| "there is no wave's region: what the source gives goes nowhere".into()),
        ];
        doubts.into_iter().flatten().collect()
    }

    fn study(&mut self) -> Result<&mut Study, String> {
        self.study.as_mut().ok_or_else(|| "there is no study yet: begin with size and pitch, or with --from".into())
    }

    fn material(&self, name: &str) -> Result<MaterialId, String> {
        let known = self.names.get(name).copied();
        let id = known
            .or_else(|| if name == "vacuum" { Some(MaterialId::VACUUM) } else { name.parse().ok().map(MaterialId::numbered) });
        id.ok_or_else(|| format!("there is no material {name:?}"))
    }

    fn float(&self, number: f64) -> String {
        match (self.hex, number.is_nan()) {
            (true, true) => "7ff8000000000000".into(),
            (true, false) => format!("{:016x}", number.to_bits()),
            (false, _) => format!("{number:?}"),
        }
    }

    /// Makes a call; its answer, if it has one.
    fn make(&mut self, statement: &Statement) -> Result<Option<String>, Trouble> {
        match statement {
            Statement::Open { grid, .. } => {
                self.study = Some(Study::open(grid)?);
                self.names.clear();
            }
            Statement::Material { name, material, pole_lines } => {
                let id = add(self.study()?, name, material, pole_lines)?;
                self.names.insert(name.clone(), id);
                return Ok(Some(format!("material {} {}", plain(name), id.number())));
            }
            Statement::Box { .. } | Statement::Halfspace { .. } | Statement::Numbers { .. } => return self.put(statement),
            Statement::Edge(edge) => return self.edge(edge),
            Statement::Run { steps, source, .. } => return self.run(*steps, source.as_ref()).map(|()| None),
            Statement::Energy => {
                let energy = self.study()?.total_energy()?;
                return Ok(Some(format!("energy {}", self.float(energy))));
            }
            Statement::Plane(k) => {
                let reading = self.study()?.plane_reading(*k)?;
                return Ok(Some(format!("plane {k} {}", self.float(reading))));
            }
            Statement::Save(path) => return self.save(path).map(Some),
            Statement::Rewind(path) => {
                // first the old one goes: to judge a save takes the room of two
                self.study = None;
                self.study = Some(study_from(path)?);
                self.names.clear();
            }
            _ => self.edit(statement)?,
        }
        Ok(None)
    }

    /// Fills cells; the answer is how many.
    fn put(&mut self, statement: &Statement) -> Result<Option<String>, Trouble> {
        let (words, cells, what) = match statement {
            Statement::Box { material, cells } => {
                (format!("box {}", plain(material)), *cells, Put::Library(self.material(material)?))
            }
            Statement::Halfspace { material, k0 } => {
                let all = CellBox::planes(*k0, usize::MAX);
                (format!("halfspace {}", plain(material)), all, Put::Library(self.material(material)?))
            }
            Statement::Numbers { cells, eps_r, mu_r, sigma } => {
                ("numbers".into(), *cells, Put::Numbers { eps_r: *eps_r, mu_r: *mu_r, sigma: *sigma })
            }
            _ => return Ok(None),
        };
        let count = self.study()?.put_box(cells, what)?;
        Ok(Some(format!("{words} {count}")))
    }

    /// A call that changes the study and answers nothing.
    fn edit(&mut self, statement: &Statement) -> Result<(), Trouble> {
        let study = self.study()?;
        match statement {
            Statement::Periodic(axes) => study.set_periodic(*axes)?,
            Statement::Wave(Wave::Slab { k0, k1 }) => study.slab_z(*k0, *k1)?,
            Statement::Wave(Wave::Injector { k0 }) => study.injector_z(*k0)?,
            Statement::Wave(Wave::Box { corners }) => study.box_region(*corners)?,
            Statement::Build => study.build_dispersion()?,
            Statement::Reset => study.reset_fields()?,
            _ => {}
        }
        Ok(())
    }

    fn edge(&mut self, edge: &Edge) -> Result<Option<String>, Trouble> {
        let study = self.study()?;
        match edge {
            Edge::Periodic => study.set_boundary_periodic()?,
            Edge::Conductor => study.set_boundary_conductor()?,
            Edge::Lossy { thickness, order, sigma_max } => study.set_boundary_lossy(*thickness, *order, *sigma_max)?,
            Edge::Layer(config) => return Ok(Some(told(Some(study.set_boundary_cpml(config)?)))),
        }
        Ok(None)
    }

    /// All steps or, where the clock has no room for them, none.
    fn run(&mut self, steps: u32, source: Option<&Source>) -> Result<(), Trouble> {
        let interrupt = self.interrupt;
        let study = self.study()?;
        if study.steps().checked_add(steps).is_none() {
            return Err(Refusal::SpentClock.into());
        }
        let _orderly = interrupt.orderly();
        let (mut done, dt, most) = (0, study.grid().dt, at_once(study.grid().cells));
        while done < steps {
            interrupt.check()?;
            let count = most.min(steps - done);
            let samples = match source {
                Some(source) => source.samples(study.time(), dt, done as usize).take(count as usize).collect(),
                None => vec![0.0; count as usize],
            };
            study.run(&samples)?;
            done += count;
        }
        Ok(())
    }

    fn save(&mut self, path: &Path) -> Result<String, Trouble> {
        let bytes = self.study()?.save()?;
        let _orderly = self.interrupt.orderly();
        write_whole(path, &bytes).map_err(|e| format!("{}: {e}", path.display()))?;
        let name = plain(&path.display().to_string());
        Ok(format!("save {name} {} bytes, SHA-256 {}", bytes.len(), sha256(&bytes)))
    }
}

/// Adds a material. Of a pole that cannot be stepped its own line is named.
fn add(study: &mut Study, name: &str, material: &Material, pole_lines: &[usize]) -> Result<MaterialId, Trouble> {
    let grid = study.grid();
    study.add_material(material).map_err(|refusal| {
        let bad = BadPole::refused(refusal, material, &grid);
        let lined = bad.and_then(|bad| Some((*pole_lines.get(bad.number)?, bad.message(&format!("material {name:?}")))));
        lined.map_or(Trouble::Refused(refusal), Trouble::Pole)
    })
}

fn at_once(cells: [usize; 3]) -> u32 {
    let steps = CELL_STEPS_AT_ONCE / cells.iter().product::<usize>().max(1);
    steps.clamp(1, MOST_STEPS_AT_ONCE) as u32
}

#[cfg(test)]
mod tests {
    use super::at_once;

    #[test]
    fn large_grids_are_stepped_in_small_parts() {
        assert_eq!([[1, 1, 90], [16, 16, 16], [64, 64, 64], [512, 4, 512]].map(at_once), [4096, 4096, 64, 16]);
    }
}
