//! The program `cichowiej` as a library. A gauge head's file is read (`head`), a study is run for each moisture (`curve`), here or point by point on many machines
//! (`cluster`), and the curve goes out as table, CSV, picture and page (`output`). A study as a text of calls is run by `script`; saves are kept in a folder
//! (`standing`); `document` reads the TOML of heads, notes and points; `pole` tells of poles that cannot be stepped; `cli` has the command's words.

pub mod cli;
pub mod cluster;
pub mod curve;
pub mod digest;
pub mod doctor;
pub mod document;
pub mod head;
pub mod man;
pub mod memory;
pub mod output;
pub mod paths;
pub mod pole;
pub mod script;
pub mod standing;
pub mod text;
