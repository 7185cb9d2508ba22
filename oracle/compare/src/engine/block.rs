//! The study record as the block's bytes, both ways. The header has the table of offsets.

pub const LENGTH: usize = 2074;
pub const HEAD: usize = 74;
pub const MATERIAL: usize = 125;
pub const MATERIALS: usize = 16;
pub const PLACES: usize = 4;
/// Where the active flags, the time, the steps and the constants stand. The constants are one byte, the head's last,
/// and the clock ends where they begin.
pub const ACTIVE: usize = 9;
pub const TIME: usize = 61;
pub const STEPS: usize = 69;
pub const CONSTANTS: usize = 73;
/// Where doubles stand in the head, and in a material up to its first place.
pub const DOUBLES: [usize; 5] = [29, 37, 45, 53, 61];

/// The one NaN that is written, and the only one that may stand in a save.
pub const NAN: u64 = 0x7FF8_0000_0000_0000;

/// A pole as its tag (1 Lorentz, 2 Drude, 3 Debye) and three numbers.
#[derive(Debug, Clone, PartialEq)]
pub struct Pole {
    pub tag: u8,
    pub numbers: [f64; 3],
}

/// A material. There are places for four poles; a larger count is written as it is.
#[derive(Debug, Clone, PartialEq)]
pub struct Material {
    pub eps_inf: f64,
    pub sigma: f64,
    pub mu_r: f64,
    pub pole_count: u8,
    pub poles: Vec<Pole>,
}

/// The region's kind (0 none, 1 slab, 2 injector, 3 box) and i0, i1, j0, j1, k0, k1.
#[derive(Debug, Clone, Copy, PartialEq)]
pub struct Region {
    pub kind: u8,
    pub corners: [usize; 6],
}

#[derive(Debug, Clone)]
pub struct Record {
    pub sizes: [usize; 3],
    pub periodic: [bool; 3],
    pub active: [bool; 3],
    pub layer_on: bool,
    pub built_count: u8,
    pub pole_slots: u8,
    pub material_count: u8,
    pub region: Region,
    pub spacings: [f64; 4],
    pub time: f64,
    pub steps: u32,
    /// 0 the older SI values, 1 those of 2019.
    pub constants: u8,
    /// The counted ones, 16 at most.
    pub materials: Vec<Material>,
}

/// Takes numbers off the front of bytes; what cannot be in a block makes `fine` false, and a NaN
/// that cannot be in a save `one_nan`.
struct Reader<'a> {
    bytes: &'a [u8],
    fine: bool,
    one_nan: bool,
}

impl Reader<'_> {
    fn number(&mut self, width: usize) -> u64 {
        let (here, rest) = self.bytes.split_at(width);
        self.bytes = rest;
        here.iter().rev().fold(0, |n, b| n << 8 | u64::from(*b))
    }

    fn flag(&mut self) -> bool {
        let n = self.number(1);
        self.fine &= n <= 1;
        n == 1
    }

    fn double(&mut self) -> f64 {
        let bits = self.number(8);
        let x = f64::from_bits(bits);
        self.one_nan &= !x.is_nan() || bits == NAN;
        x
    }

    fn pole(&mut self, counted: bool) -> Pole {
        let tag = self.number(1) as u8;
        let numbers = [self.double(), self.double(), self.double()];
        let zeros = numbers.map(|x| x.to_bits() == 0);
        self.fine &= match (counted, tag) {
            (false, _) => tag == 0 && zeros == [true; 3],
            (true, 1) => true,
            (true, 2 | 3) => zeros[2],
            _ => false,
        };
        Pole { tag, numbers }
    }

    fn material(&mut self) -> Material {
        let (eps_inf, sigma, mu_r) = (self.double(), self.double(), self.double());
        let pole_count = self.number(1) as u8;
        let mut poles: Vec<Pole> = (0..PLACES)
            .map(|place| self.pole(place < usize::from(pole_count)))
            .collect();
        poles.truncate(usize::from(pole_count));
        Material {
            eps_inf,
            sigma,
            mu_r,
            pole_count,
            poles,
        }
    }

    fn head(&mut self) -> Record {
        let sizes = [0; 3].map(|_: usize| self.number(2) as usize);
        let periodic = [0; 3].map(|_| self.flag());
        let active = [0; 3].map(|_| self.flag());
        let layer_on = self.flag();
        let [built_count, pole_slots, material_count, kind] = [0; 4].map(|_| self.number(1) as u8);
        let corners = [0; 6].map(|_: usize| self.number(2) as usize);
        self.fine &= kind <= 3 && (kind != 0 || corners == [0; 6]);
        Record {
            sizes,
            periodic,
            active,
            layer_on,
            built_count,
            pole_slots,
            material_count,
            region: Region { kind, corners },
            spacings: [0; 4].map(|_| self.double()),
            time: self.double(),
            steps: self.number(4) as u32,
            constants: self.number(1) as u8,
            materials: Vec::new(),
        }
    }
}

/// What so many bytes say, and whether a save may say it too: a block and a material's bytes may have
/// any NaN. None where the bytes say nothing.
fn read<T>(bytes: &[u8], length: usize, take: fn(&mut Reader) -> T) -> Option<(T, bool)> {
    if bytes.len() != length {
        return None;
    }
    let mut reader = Reader {
        bytes,
        fine: true,
        one_nan: true,
    };
    let said = take(&mut reader);
    reader.fine.then_some((said, reader.one_nan))
}

/// The head of a block, with no material in the record.
fn read_head(bytes: &[u8]) -> Option<Record> {
    read(bytes, HEAD, |r| r.head()).map(|(head, _)| head)
}

pub fn read_material(bytes: &[u8]) -> Option<Material> {
    read(bytes, MATERIAL, |r| r.material()).map(|(material, _)| material)
}

/// A save's GH, with no material in the record.
pub fn saved_head(bytes: &[u8]) -> Option<Record> {
    let (head, one_nan) = read(bytes, HEAD, |r| r.head())?;
    one_nan.then_some(head)
}

/// A material of a save's ML.
pub fn saved_material(bytes: &[u8]) -> Option<Material> {
    let (material, one_nan) = read(bytes, MATERIAL, |r| r.material())?;
    one_nan.then_some(material)
}

impl Record {
    /// The record in a block; none where the block is no record. Whether the record agrees with
    /// itself is another question: `judge` answers it.
    pub fn read(block: &[u8]) -> Option<Record> {
        if block.len() != LENGTH {
            return None;
        }
        let (head, entries) = block.split_at(HEAD);
        let mut record = read_head(head)?;
        for (i, entry) in entries.chunks(MATERIAL).enumerate() {
            if i < usize::from(record.material_count) {
                record.materials.push(read_material(entry)?);
            } else if entry.iter().any(|b| *b != 0) {
                return None;
            }
        }
        Some(record)
    }

    /// As the engine writes it: every NaN is the one.
    pub fn write(&self) -> Vec<u8> {
        self.bytes(double)
    }

    /// As a caller may hand it over: every NaN keeps its bits.
    pub fn given(&self) -> Vec<u8> {
        self.bytes(f64::to_le_bytes)
    }

    fn bytes(&self, double: fn(f64) -> [u8; 8]) -> Vec<u8> {
        let mut out = Vec::with_capacity(LENGTH);
        for n in self.sizes {
            out.extend((n as u16).to_le_bytes());
        }
        out.extend(self.periodic.map(u8::from));
        out.extend(self.active.map(u8::from));
        let counts = [self.built_count, self.pole_slots, self.material_count];
        out.push(u8::from(self.layer_on));
        out.extend(counts);
        out.push(self.region.kind);
        for n in self.region.corners {
            out.extend((n as u16).to_le_bytes());
        }
        for x in self.spacings.into_iter().chain([self.time]) {
            out.extend(double(x));
        }
        out.extend(self.steps.to_le_bytes());
        out.push(self.constants);
        for material in &self.materials {
            out.extend(material.bytes(double));
        }
        out.resize(LENGTH, 0);
        out
    }

    pub fn cells(&self) -> usize {
        self.sizes.iter().product()
    }
}

impl Material {
    /// As the engine writes it: every NaN is the one.
    pub fn write(&self) -> Vec<u8> {
        self.bytes(double)
    }

    /// As a caller may hand it over: every NaN keeps its bits.
    pub fn given(&self) -> Vec<u8> {
        self.bytes(f64::to_le_bytes)
    }

    fn bytes(&self, double: fn(f64) -> [u8; 8]) -> Vec<u8> {
        let mut out = Vec::with_capacity(MATERIAL);
        for x in [self.eps_inf, self.sigma, self.mu_r] {
            out.extend(double(x));
        }
        out.push(self.pole_count);
        for pole in self.poles.iter().take(PLACES) {
            out.push(pole.tag);
            out.extend(pole.numbers.into_iter().flat_map(double));
        }
        out.resize(MATERIAL, 0);
        out
    }
}

/// A double's bytes, with every NaN as the one.
pub fn double(x: f64) -> [u8; 8] {
    let bits = if x.is_nan() { NAN } else { x.to_bits() };
    bits.to_le_bytes()
}
