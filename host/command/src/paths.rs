//! Where a path leads, whether something is there yet or not.

use cichowiej::folder;
use std::path::{Path, PathBuf};

/// The path of the file that this one reads, writes or will write: links are followed, also to what is not there yet.
pub fn resolved(path: &Path) -> PathBuf {
    let target = followed(path);
    // of a file that is not there yet, its folder's path and its name
    let beside = || Some(folder(&target).canonicalize().ok()?.join(target.file_name()?));
    target.canonicalize().ok().or_else(beside).unwrap_or(target)
}

/// Whether the folder is there that a file would be written to.
pub fn check_folder(path: &Path) -> Result<(), String> {
    let target = followed(path);
    let folder = folder(&target);
    let is_good = path.exists() || folder.is_dir();
    if is_good { Ok(()) } else { Err(format!("{}: there is no folder {}: make it first", path.display(), folder.display())) }
}

/// Links that lead nowhere are told when they are opened.
fn followed(path: &Path) -> PathBuf {
    cichowiej::followed(path).unwrap_or_else(|_| path.to_path_buf())
}

#[cfg(test)]
mod tests {
    use super::*;
    use std::fs;
    use std::os::unix::fs::symlink;

    #[test]
    fn names_of_one_file_lead_to_one_path() {
        let place = tempfile::tempdir().unwrap();
        let at = |name: &str| place.path().canonicalize().unwrap().join(name);
        fs::create_dir(at("sub")).unwrap();
        fs::write(at("there"), "").unwrap();
        symlink("sub", at("folder")).unwrap();
        symlink("there", at("link")).unwrap();
        symlink("sub/new", at("dangling")).unwrap();
        symlink("circle", at("circle")).unwrap();
        let [there, new] = ["there", "sub/new"].map(|name| resolved(&at(name)));
        assert!(["link", "./there", "sub/../there", "folder/../there"].iter().all(|name| resolved(&at(name)) == there));
        assert!(["dangling", "folder/new", "sub/./new"].iter().all(|name| resolved(&at(name)) == new));
        assert!(there != new && resolved(&at("sub/there")) != there);
        assert_eq!(resolved(&at("circle")), at("circle"));
    }

    #[test]
    fn a_missing_folder_is_named() {
        let place = tempfile::tempdir().unwrap();
        let at = |name: &str| place.path().join(name);
        symlink("nowhere/new", at("dangling")).unwrap();
        for name in ["nowhere/new", "dangling"] {
            let told = check_folder(&at(name)).unwrap_err();
            assert!(told.contains(&format!("there is no folder {}: make it first", at("nowhere").display())), "{told}");
        }
        assert!(check_folder(&at("new")).is_ok() && check_folder(Path::new("new")).is_ok());
        assert!(check_folder(Path::new("/dev/null")).is_ok());
    }
}
