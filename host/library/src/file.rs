//! Files that are there whole or not at all.

use std::collections::hash_map::RandomState;
use std::fs::{self, File, Metadata, Permissions};
use std::hash::{BuildHasher, Hasher};
use std::io::{self, Write};
use std::os::fd::AsFd;
use std::os::unix::fs::{MetadataExt, OpenOptionsExt, PermissionsExt, fchown};
use std::path::{Path, PathBuf};
use tempfile::TempPath;

/// As many symbolic links as the system follows.
const MOST_LINKS: usize = 40;

/// Writes a file under a temporary name in its folder, has it on the disk, and gives it its name then; the folder is synced too. Whatever happens, a file of
/// that name is the old one or the new one, whole. A new file has the mode that the umask leaves it, one in the place of an old one has the old one's; a symbolic
/// link stays, and the file that it leads to is replaced. What is there and is no file, as a pipe or a device, is written to as it stands.
pub fn write_whole(path: &Path, bytes: &[u8]) -> io::Result<()> {
    if let Some(mut out) = as_it_stands(path)? {
        return out.write_all(bytes).and_then(|()| out.flush());
    }
    let target = followed(path)?;
    let old = fs::metadata(&target).ok();
    if old.is_some() {
        // the file's owner may have shut it, which renaming would not see
        File::options().write(true).open(&target)?;
    }
    temporary(&target, bytes, old.as_ref())?.persist(&target).map_err(|failed| failed.error)?;
    sync_folder(folder(&target))
}

/// The same for a file that is not there yet; false where one of this name is there, which then stays. Of several programs that do so at a time one alone has true,
/// where the file system has hard links.
pub fn write_new(path: &Path, bytes: &[u8]) -> io::Result<bool> {
    let made = match temporary(path, bytes, None)?.persist_noclobber(path) {
        Ok(()) => true,
        Err(failed) if failed.error.kind() == io::ErrorKind::AlreadyExists => false,
        Err(failed) if knows_no_links(&failed.error) => renamed(failed.path, path)?,
        Err(failed) => return Err(failed.error),
    };
    if made { sync_folder(folder(path)).map(|()| true) } else { Ok(false) }
}

/// A name is given by a link, since that fails where it is taken. Some file systems, as a memory stick's, have none.
fn knows_no_links(error: &io::Error) -> bool {
    matches!(error.kind(), io::ErrorKind::PermissionDenied | io::ErrorKind::Unsupported)
}

/// There the name is looked for and then given: of two programs that do so in the same moment both have true, and the last one's file stays.
fn renamed(file: TempPath, path: &Path) -> io::Result<bool> {
    if fs::symlink_metadata(path).is_ok() {
        return Ok(false);
    }
    file.persist(path).map(|()| true).map_err(|failed| failed.error)
}

/// Has on the disk which files a folder has.
pub fn sync_folder(folder: &Path) -> io::Result<()> {
    passed_over(File::open(folder).and_then(|folder| folder.sync_all()))
}

/// Some file systems know no such call for a folder, and some folders may be written to and not read: the files in it have their names all the same.
fn passed_over(synced: io::Result<()>) -> io::Result<()> {
    use io::ErrorKind::{InvalidInput, PermissionDenied, Unsupported};
    match synced {
        Err(e) if matches!(e.kind(), InvalidInput | PermissionDenied | Unsupported) => Ok(()),
        other => other,
    }
}

/// The folder that a path is in.
pub fn folder(path: &Path) -> &Path {
    path.parent().filter(|folder| *folder != Path::new("")).unwrap_or(Path::new("."))
}

/// What is written to as it stands: what is no file, and a file that is open already and named by its descriptor, as /dev/stdout or /dev/fd/3. This program's own
/// streams go on from where they are.
fn as_it_stands(path: &Path) -> io::Result<Option<Box<dyn Write>>> {
    let Ok(found) = fs::metadata(path) else { return Ok(None) };
    if found.is_file() && !is_descriptor(path) {
        return Ok(None);
    }
    if is_open_as(&found, io::stdout()) {
        return Ok(Some(Box::new(io::stdout())));
    }
    if is_open_as(&found, io::stderr()) {
        return Ok(Some(Box::new(io::stderr())));
    }
    Ok(Some(Box::new(File::options().append(true).open(path)?)))
}

/// /dev/stdout and its like are links to /proc/self/fd/1.
fn is_descriptor(path: &Path) -> bool {
    let below_proc = |path: &Path| folder(path).canonicalize().is_ok_and(|folder| folder.starts_with("/proc"));
    below_proc(path) || fs::read_link(path).is_ok_and(|next| below_proc(&folder(path).join(next)))
}

fn is_open_as(found: &Metadata, stream: impl AsFd) -> bool {
    let open = stream.as_fd().try_clone_to_owned().map(File::from).and_then(|file| file.metadata());
    open.is_ok_and(|open| (open.dev(), open.ino()) == (found.dev(), found.ino()))
}

/// Where a path's symbolic links lead, whether something is there or not.
pub fn followed(path: &Path) -> io::Result<PathBuf> {
    let mut at = path.to_path_buf();
    for _ in 0..=MOST_LINKS {
        match fs::read_link(&at) {
            Ok(next) => at = folder(&at).join(next),
            // no link
            Err(_) => return Ok(at),
        }
    }
    Err(io::Error::other("symbolic links lead to one another without end"))
}

/// The bytes on the disk in a file beside the target, which goes when it is dropped. Its mode is the umask's, or that of the file whose place it takes.
fn temporary(target: &Path, bytes: &[u8], old: Option<&Metadata>) -> io::Result<TempPath> {
    let (mut file, path) = created(folder(target))?;
    file.write_all(bytes)?;
    if let Some(old) = old {
        // another's file becomes this user's where the system does not let it stay the other's; what runs in the other's name does so no more
        let stays = fchown(&file, Some(old.uid()), Some(old.gid())).is_ok();
        file.set_permissions(Permissions::from_mode(old.mode() & if stays { 0o7777 } else { 0o777 }))?;
    }
    file.sync_all()?;
    Ok(path)
}

/// A new file under a name that nothing has.
fn created(folder: &Path) -> io::Result<(File, TempPath)> {
    loop {
        let path = folder.join(format!(".tmp{:08x}", RandomState::new().build_hasher().finish() as u32));
        match File::options().write(true).create_new(true).mode(0o666).open(&path) {
            Err(e) if e.kind() == io::ErrorKind::AlreadyExists => {}
            made => return Ok((made?, TempPath::from_path(path))),
        }
    }
}

#[cfg(test)]
mod tests {
    use super::{knows_no_links, passed_over, renamed, temporary};
    use std::fs;
    use std::io::Error;

    /// By Linux's numbers: 22 EINVAL, 95 EOPNOTSUPP, 13 EACCES; 5 EIO, 28 ENOSPC.
    #[test]
    fn a_folder_that_cannot_be_synced_is_no_failed_write() {
        for number in [22, 95, 13] {
            assert!(passed_over(Err(Error::from_raw_os_error(number))).is_ok(), "{number}");
        }
        for number in [5, 28] {
            assert_eq!(passed_over(Err(Error::from_raw_os_error(number))).unwrap_err().raw_os_error(), Some(number));
        }
        assert!(passed_over(Ok(())).is_ok());
    }

    /// 1 EPERM, 95 EOPNOTSUPP, 38 ENOSYS; 17 EEXIST, 28 ENOSPC.
    #[test]
    fn a_new_file_needs_no_links() {
        assert!([1, 95, 38].map(|number| knows_no_links(&Error::from_raw_os_error(number))) == [true; 3]);
        assert!([17, 28].map(|number| knows_no_links(&Error::from_raw_os_error(number))) == [false; 2]);
        let place = tempfile::tempdir().unwrap();
        let path = place.path().join("f");
        let tried = |bytes: &[u8]| renamed(temporary(&path, bytes, None).unwrap(), &path).unwrap();
        assert!(tried(b"first") && !tried(b"second"));
        assert_eq!(fs::read(&path).unwrap(), b"first");
        // and nothing is left under a temporary name
        assert_eq!(fs::read_dir(place.path()).unwrap().count(), 1);
    }
}
