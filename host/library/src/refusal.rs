//! What the engine turns a call down for.

use std::fmt;

/// The refusals, each with its number and with what to change.
macro_rules! refusals {
    ($($name:ident $number:literal $advice:literal,)*) => {
        /// The refusals, by the numbers and names of documents 01 and 02. Of several the engine gives the first.
        #[derive(Debug, Clone, Copy, PartialEq, Eq, Hash)]
        #[repr(u32)]
        pub enum Refusal {
            $($name = $number,)*
        }

        /// All of them, in the order of their numbers.
        pub const REFUSALS: &[Refusal] = &[$(Refusal::$name,)*];

        impl Refusal {
            /// The documents' name.
            pub fn name(self) -> &'static str {
                match self {
                    $(Self::$name => stringify!($name),)*
                }
            }

            /// What to change.
            pub fn advice(self) -> &'static str {
                match self {
                    $(Self::$name => $advice,)*
                }
            }
        }
    };
}

// 18 is the refusal of a change request that has not landed (document 02, S-1): the engine answers it to nothing yet
refusals! {
    BadSize 1 "take 1 to 512 cells along each axis, and no more than 1,048,576 in all",
    BadSpacing 2 "make dx, dy, dz and dt finite and larger than 0",
    BadStudy 3 "take 0 to 4 pole slots and constants old or 2019; if the study came from outside, its record contradicts itself or has a pole that cannot be stepped (19): open it anew",
    BadStore 4 "lend each store at the length that the study's sizes give it",
    Full 5 "use fewer materials: a study has 16 at the most, the vacuum among them",
    TooManyPoles 6 "open the study with more pole slots (4 at the most), or give the material fewer poles",
    NoSuchMaterial 7 "add the material before it is placed",
    StaleMaterial 8 "build dispersion again: a cell has a material that was added after it was built",
    BadRegion 9 "put the wave's region into the grid: i0 <= i1 < nx, j0 <= j1 < ny, k0 <= k1 < nz",
    BadOrder 10 "take an order of 8 at the most for the lossy edge",
    SpentClock 11 "open the study anew: its clock counts no more than 4,294,967,295 steps",
    NoRoom 12 "lend as many bytes as the save takes",
    Short 13 "copy the save anew, whole: it is cut off",
    BadMark 14 "take another file: this is no save, or a damaged one",
    BadRecord 15 "take another copy of the save: this one is damaged, or an older library wrote it with a pole that cannot be stepped (19)",
    Trailing 16 "take the save alone: there are bytes behind its end",
    NoSuchPlane 17 "read a plane below nz",
    BadPole 19 "a relaxation time of 0? give the pole one above 0, and rates and strengths that are not far too large: with this time step its a1, a2 or a3 is not finite",
}

impl Refusal {
    pub fn number(self) -> u32 {
        self as u32
    }

    pub fn numbered(number: u32) -> Option<Self> {
        REFUSALS.iter().copied().find(|refusal| refusal.number() == number)
    }

    /// As 19 BadPole.
    pub fn title(self) -> String {
        format!("{} {}", self.number(), self.name())
    }

    /// What a call answered: the engine's contract has it at 0 or the number of one of these.
    pub(crate) fn check(number: u32) -> Result<(), Refusal> {
        match number {
            0 => Ok(()),
            n => Err(Self::numbered(n).unwrap_or(Self::BadStudy)),
        }
    }
}

impl fmt::Display for Refusal {
    fn fmt(&self, f: &mut fmt::Formatter) -> fmt::Result {
        write!(f, "{}: {}", self.title(), self.advice())
    }
}

impl std::error::Error for Refusal {}
