//! A folder of saves that are kept: each under the SHA-256 of its bytes, with a note beside it. Files are only ever added, whole.

pub mod compare;
pub mod date;
pub mod fault;
pub mod list;
pub mod note;
pub mod records;
pub mod show;
pub mod stream;
pub mod tree;
pub mod verify;

use crate::digest::sha256;
use crate::standing::fault::{Fault, take_up};
use crate::standing::note::{Note, Numbers, Words};
use crate::standing::stream::Stream;
use crate::text::{Kind, open_file, read_up_to};
use cichowiej::{MAX_CELLS, MAX_SIDE, Study, sync_folder, write_new};
use std::collections::BTreeSet;
use std::fs::{self, File};
use std::io;
use std::path::{Path, PathBuf};

/// No save has more bytes: 908 + 125 M + 196 N + 48 P N + 48 L + 16 nz with 16 materials and 4 pole slots.
const LONGEST_SAVE: u64 = 908 + 125 * 16 + (196 + 48 * 4) * MAX_CELLS as u64 + (48 * 3 + 16) * MAX_SIDE as u64;

/// The folder.
pub struct Standing {
    folder: PathBuf,
}

/// What is in it, by the names of the files without their endings.
pub struct Names {
    /// With those whose name is no digest, which nothing but `verify` speaks of.
    pub saves: BTreeSet<String>,
    pub notes: BTreeSet<String>,
    /// Files under temporary names, which a killed program has left.
    pub leftovers: usize,
}

/// A save's note.
pub enum Noted {
    Nothing,
    Whole(Note),
    /// With what is wrong with it.
    Damaged(String),
}

impl Noted {
    pub fn whole(&self) -> Option<&Note> {
        match self {
            Self::Whole(note) => Some(note),
            _ => None,
        }
    }
}

/// A save that goes into the folder. Its study is not with it: of what is large only one is held at a time, bytes or study, but for the engine's own work on both.
pub struct Save {
    pub id: String,
    pub bytes: Vec<u8>,
    pub numbers: Numbers,
}

impl Save {
    /// From a file of a person's, or from a pipe.
    pub fn from_file(path: &Path) -> Result<Self, String> {
        read_save(path).map(|(bytes, study)| Self::new(bytes, study))
    }

    pub fn from_study(study: Study) -> Result<Self, String> {
        let bytes = study.save().map_err(|refusal| format!("the study's save: refused as {refusal}"))?;
        Ok(Self::new(bytes, study))
    }

    fn new(bytes: Vec<u8>, study: Study) -> Self {
        let numbers = Numbers::of(&study, bytes.len());
        drop(study);
        Self { id: sha256(&bytes), bytes, numbers }
    }
}

/// The study of a save, from a file of a person's or from a pipe.
pub fn study_from(path: &Path) -> Result<Study, String> {
    read_save(path).map(|(_, study)| study)
}

fn read_save(path: &Path) -> Result<(Vec<u8>, Study), String> {
    let bytes = File::open(path).and_then(|file| read_up_to(file, LONGEST_SAVE));
    let bytes = bytes.map_err(|e| format!("{}: {e}", path.display()))?;
    take_up(bytes).map_err(|fault| fault.named(path).into())
}

/// The study of a kept save that was judged, and how many bytes the save has.
pub struct Kept {
    pub study: Study,
    pub length: usize,
}

impl Kept {
    pub fn numbers(&self) -> Numbers {
        Numbers::of(&self.study, self.length)
    }
}

impl Standing {
    pub fn at(folder: &Path) -> Self {
        Self { folder: folder.to_path_buf() }
    }

    pub fn folder(&self) -> String {
        self.folder.display().to_string()
    }

    pub fn save_path(&self, id: &str) -> PathBuf {
        self.folder.join(format!("{id}.save"))
    }

    pub fn note_path(&self, id: &str) -> PathBuf {
        self.folder.join(format!("{id}.toml"))
    }

    pub fn names(&self) -> Result<Names, String> {
        let told = |e: io::Error| format!("{}: {e}", self.folder());
        let mut names = Names { saves: BTreeSet::new(), notes: BTreeSet::new(), leftovers: 0 };
        for entry in fs::read_dir(&self.folder).map_err(told)? {
            let name = entry.map_err(told)?.file_name().to_string_lossy().into_owned();
            if let Some(id) = name.strip_suffix(".save") {
                names.saves.insert(id.into());
            } else if let Some(id) = name.strip_suffix(".toml").filter(|id| is_digest(id)) {
                names.notes.insert(id.into());
            } else if name.starts_with(".tmp") {
                names.leftovers += 1;
            }
        }
        Ok(names)
    }

    /// The one kept save whose digest begins so.
    pub fn resolve(&self, prefix: &str) -> Result<String, String> {
        let names = self.names()?;
        let begins = |id: &&String| is_digest(id) && id.starts_with(prefix);
        let found: Vec<&String> = names.saves.iter().filter(begins).collect();
        match found.as_slice() {
            [] if names.notes.iter().any(|id| id.starts_with(prefix)) => {
                Err(format!("{prefix}: in {} its note alone is there, and not the save", self.folder()))
            }
            [] => Err(format!("{prefix}: no save in {} begins so", self.folder())),
            [id] => Ok(id.to_string()),
            several => {
                let ids: Vec<&str> = several.iter().map(|id| apart(id, several)).collect();
                Err(format!("{prefix}: {} saves in {} begin so: {}", ids.len(), self.folder(), ids.join(", ")))
            }
        }
    }

    /// A kept save, judged.
    pub fn kept(&self, id: &str) -> Result<Kept, Fault> {
        let path = self.save_path(id);
        let bytes = open_file(&path).and_then(|file| read_up_to(file, LONGEST_SAVE));
        let kept = bytes.map_err(|e| Fault::damage(e.to_string())).and_then(|bytes| judged(id, bytes));
        kept.map_err(|fault| fault.named(&path))
    }

    pub fn note(&self, id: &str) -> Noted {
        let path = self.note_path(id);
        let name = path.display();
        let text = match open_file(&path).and_then(|file| Kind::NOTE.read(file)) {
            Ok(bytes) => String::from_utf8(bytes).map_err(|_| "not UTF-8".to_string()),
            Err(e) if e.kind() == io::ErrorKind::NotFound => return Noted::Nothing,
            Err(e) => Err(e.to_string()),
        };
        match text {
            Ok(text) => {
                Note::parse(&text).map_or_else(|trouble| Noted::Damaged(trouble.located(&name.to_string(), &text)), Noted::Whole)
            }
            Err(message) => Noted::Damaged(format!("{name}: {message}")),
        }
    }

    /// Whether the save is there. It is, if the file of its name has the bytes whose SHA-256 this is.
    pub fn holds(&self, save: &Save) -> Result<bool, String> {
        let path = self.save_path(&save.id);
        match Stream::open(&path).and_then(Stream::digest) {
            Ok(digest) if digest == save.id => Ok(true),
            Ok(_) => Err(in_the_way(&path, "this file is damaged")),
            // a folder that is none is told when it is to be made
            Err(e) if matches!(e.kind(), io::ErrorKind::NotFound | io::ErrorKind::NotADirectory) => Ok(false),
            Err(e) => Err(in_the_way(&path, &e.to_string())),
        }
    }

    /// Adds a save, and makes the folder.
    pub fn add(&self, save: &Save) -> Result<(), String> {
        self.make().map_err(|e| format!("{}: {e}", self.folder()))?;
        let path = self.save_path(&save.id);
        // another program may have added the same one since it was looked for
        if write(&path, &save.bytes)? || self.holds(save)? { Ok(()) } else { Err(in_the_way(&path, NOWHERE)) }
    }

    /// Adds the note of a save where there is none. The answer is the one that was there before: of several programs the first one's stays.
    pub fn annotate(&self, save: &Save, words: Words) -> Result<Noted, String> {
        let before = self.note(&save.id);
        let Noted::Nothing = before else { return Ok(before) };
        // a save whose note was lost may be what its own child made again
        let grew_from = words.grew_from.filter(|from| *from != save.id);
        let note = Note::new(save.numbers, date::now(), Words { grew_from, ..words });
        let text = toml::to_string(&note).map_err(|e| e.to_string())?;
        let path = self.note_path(&save.id);
        if write(&path, text.as_bytes())? {
            return Ok(before);
        }
        match self.note(&save.id) {
            Noted::Nothing => Err(in_the_way(&path, NOWHERE)),
            noted => Ok(noted),
        }
    }

    fn make(&self) -> io::Result<()> {
        if self.folder.is_dir() {
            return Ok(());
        }
        fs::create_dir_all(&self.folder)?;
        sync_folder(&self.folder.join(".."))
    }
}

/// Of a name that is taken, and yet nothing can be read under it.
const NOWHERE: &str = "this is a link to nothing";

fn in_the_way(path: &Path, message: &str) -> String {
    format!("{}: {message}; move it away, then keep the save again", path.display())
}

/// False where the file is there already.
fn write(path: &Path, bytes: &[u8]) -> Result<bool, String> {
    write_new(path, bytes).map_err(|e| format!("{}: {e}", path.display()))
}

/// The study of a kept save, or what is wrong with it.
fn judged(id: &str, bytes: Vec<u8>) -> Result<Kept, Fault> {
    let (digest, length) = (sha256(&bytes), bytes.len());
    let other = format!("its SHA-256 is {digest} and not its name");
    match (digest == id, take_up(bytes)) {
        (true, taken) => taken.map(|(_, study)| Kept { study, length }),
        (false, Ok(_)) => Err(Fault::damage(format!("{other}: the engine takes it, but it is not the save that was kept"))),
        (false, Err(fault)) => Err(fault.of_others(&other)),
    }
}

/// A SHA-256 as this program writes it.
pub fn is_digest(text: &str) -> bool {
    text.len() == 64 && text.bytes().all(|b| matches!(b, b'0'..=b'9' | b'a'..=b'f'))
}

/// The digits by which a save is called.
pub fn short(id: &str) -> &str {
    id.get(..12).unwrap_or(id)
}

/// As many digits as tell it from the others, 12 or more.
fn apart<'a>(id: &'a str, among: &[&String]) -> &'a str {
    let alone = |&digits: &usize| among.iter().filter(|other| other.get(..digits) == id.get(..digits)).count() == 1;
    (12..id.len()).find(alone).and_then(|digits| id.get(..digits)).unwrap_or(id)
}
