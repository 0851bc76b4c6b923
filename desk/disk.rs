//! Writing that survives a power cut: what a rename puts in place has been synced before it.

use crate::stop::{Result, Stop};
use std::fs::{self, File, OpenOptions};
use std::io::{self, ErrorKind, Read, Write};
use std::os::fd::AsRawFd;
use std::os::unix::fs::{chown, MetadataExt, OpenOptionsExt};
use std::path::{Path, PathBuf};
use std::thread;
use std::time::Duration;

/// Lines for 1,000,000 packets are shorter.
const MOST_READ: u64 = 1 << 27;
/// How often the lock is tried, a fiftieth of a second apart.
const TRIES: usize = 10;
const LOCK_EXCLUSIVE: i32 = 2;
const LOCK_AT_ONCE: i32 = 4;

extern "C" {
    fn flock(descriptor: i32, operation: i32) -> i32;
}

/// Kept as long as a command changes a plant; another one that wants to is refused meanwhile.
pub struct Lock {
    _file: File,
}

impl Lock {
    pub fn take(path: &Path) -> Result<Lock> {
        // Whoever may only read here can still wait for the others.
        let file = match File::open(path) {
            Err(error) if error.kind() == ErrorKind::NotFound => {
                OpenOptions::new().write(true).create(true).truncate(false).open(path)
            }
            opened => opened,
        };
        let file = file.map_err(|error| Stop::file(path, error))?;
        for _ in 0..TRIES {
            // The descriptor is open as long as the file is.
            if unsafe { flock(file.as_raw_fd(), LOCK_EXCLUSIVE | LOCK_AT_ONCE) } == 0 {
                return Ok(Lock { _file: file });
            }
            let error = io::Error::last_os_error();
            if error.kind() != ErrorKind::WouldBlock {
                return Err(Stop::file(path, error));
            }
            // Whoever only looks whether somebody is at work is gone in a moment.
            thread::sleep(Duration::from_millis(20));
        }
        Err(Stop::file(path, "another foldplover is at work on this plant; try again"))
    }
}

/// A name that begins as the path does and that nothing has yet. What a command that was cut off left
/// may have the number of this process.
pub fn fresh(path: &Path) -> PathBuf {
    let named = |count: usize| {
        let mut name = path.as_os_str().to_owned();
        name.push(format!("new-{}", std::process::id()));
        if count > 0 {
            name.push(format!("-{count}"));
        }
        PathBuf::from(name)
    };
    let free = (0..).map(named).find(|name| fs::symlink_metadata(name).is_err());
    free.unwrap_or_else(|| named(0))
}

fn beside(path: &Path) -> PathBuf {
    let mut name = path.as_os_str().to_owned();
    name.push(".");
    fresh(Path::new(&name))
}

/// The folder that a path stands in.
pub fn parent(path: &Path) -> &Path {
    match path.parent() {
        Some(parent) if !parent.as_os_str().is_empty() => parent,
        _ => Path::new("."),
    }
}

pub fn sync_folder(path: &Path) -> Result<()> {
    let synced = File::open(path).and_then(|folder| folder.sync_all());
    synced.map_err(|error| Stop::file(path, error))
}

/// A new file with these bytes, synced.
pub fn create(path: &Path, bytes: &[u8]) -> Result<()> {
    written(path, bytes, 0o666).map_err(|error| Stop::file(path, error))
}

/// The same, not to be written again, for those who may read `like`.
pub fn create_kept(path: &Path, bytes: &[u8], like: &Path) -> Result<()> {
    let mode = fs::metadata(like).map_or(0o444, |like| like.mode() & 0o444);
    written(path, bytes, mode).map_err(|error| Stop::file(path, error))?;
    give(path, like);
    Ok(())
}

fn written(path: &Path, bytes: &[u8], mode: u32) -> io::Result<()> {
    let mut file = OpenOptions::new().write(true).create_new(true).mode(mode).open(path)?;
    file.write_all(bytes)?;
    file.sync_all()
}

pub fn create_folder(path: &Path) -> Result<()> {
    fs::create_dir(path).map_err(|error| Stop::file(path, error))?;
    sync_folder(parent(path)).map_err(|stop| {
        let _ = fs::remove_dir(path);
        stop
    })
}

/// Makes the owner of `like` that of a new file or folder. Who may not give files away keeps them.
pub fn give(path: &Path, like: &Path) {
    if let Ok(like) = fs::metadata(like) {
        let _ = chown(path, Some(like.uid()), Some(like.gid()));
    }
}

/// A file that is there may be written, though it is replaced and not written to; `path` is its name for
/// people.
fn writable(place: &Path, path: &Path) -> Result<()> {
    let Ok(found) = fs::metadata(place) else { return Ok(()) };
    if found.permissions().readonly() {
        return Err(Stop::file(path, "is write-protected"));
    }
    let opened = OpenOptions::new().write(true).open(place);
    opened.map(|_| ()).map_err(|error| Stop::file(path, error))
}

/// The same for a text that is about to be edited.
pub fn editable(path: &Path) -> Result<()> {
    writable(path, path)
}

/// A file that is written and synced, and still has another name than it is meant for.
pub struct Prepared {
    path: PathBuf,
    new: PathBuf,
    place: PathBuf,
    is_put: bool,
}

impl Prepared {
    /// Mode and owner are those of the file that is there, if one is. A link stays one, and what it leads
    /// to is replaced.
    pub fn new(path: &Path, bytes: &[u8]) -> Result<Prepared> {
        let linked = fs::symlink_metadata(path).is_ok_and(|found| found.is_symlink());
        let place = match linked {
            true => fs::canonicalize(path).map_err(|error| Stop::file(path, error))?,
            false => path.to_path_buf(),
        };
        let old = fs::metadata(&place).ok();
        if old.as_ref().is_some_and(|old| !old.is_file()) {
            return Err(Stop::file(path, "is no plain file"));
        }
        writable(&place, path)?;
        let new = beside(&place);
        let prepared = Prepared { path: path.to_path_buf(), new, place, is_put: false };
        let mode = old.as_ref().map_or(0o666, |old| old.mode() & 0o777);
        let done = written(&prepared.new, bytes, mode).and_then(|()| match old {
            Some(old) => {
                give(&prepared.new, &prepared.place);
                fs::set_permissions(&prepared.new, old.permissions())
            }
            None => Ok(()),
        });
        done.map_err(|error| Stop::file(path, error))?;
        Ok(prepared)
    }

    pub fn put(&mut self) -> Result<()> {
        fs::rename(&self.new, &self.place).map_err(|error| Stop::file(&self.path, error))?;
        self.is_put = true;
        Ok(())
    }

    pub fn sync(&self) -> Result<()> {
        sync_folder(parent(&self.place))
    }
}

impl Drop for Prepared {
    fn drop(&mut self) {
        if !self.is_put {
            let _ = fs::remove_file(&self.new);
        }
    }
}

/// A file with these bytes in the place of the one that is there, if one is: whole or not at all.
pub fn replace(path: &Path, bytes: &[u8]) -> Result<()> {
    let mut prepared = Prepared::new(path, bytes)?;
    prepared.put()?;
    prepared.sync()
}

/// A file that somebody else wrote, and its name, made sure of.
pub fn sync_file(path: &Path) -> Result<()> {
    let synced = File::open(path).and_then(|file| file.sync_all());
    synced.map_err(|error| Stop::file(path, error))?;
    sync_folder(parent(path))
}

/// A link by this name, in the place of the one that is there.
pub fn replace_link(link: &Path, target: &str) -> Result<()> {
    let new = beside(link);
    std::os::unix::fs::symlink(target, &new).map_err(|error| Stop::file(&new, error))?;
    fs::rename(&new, link).map_err(|error| {
        let _ = fs::remove_file(&new);
        Stop::file(link, error)
    })
}

/// All bytes of a file, which may not be longer than any that is meant to be read: some never end.
pub fn read(path: &Path) -> Result<Vec<u8>> {
    let file = File::open(path).map_err(|error| Stop::file(path, error))?;
    read_from(file).map_err(|error| Stop::file(path, error))
}

pub fn read_from(source: impl Read) -> io::Result<Vec<u8>> {
    let mut bytes = Vec::new();
    source.take(MOST_READ + 1).read_to_end(&mut bytes)?;
    if bytes.len() as u64 > MOST_READ {
        return Err(io::Error::new(ErrorKind::Other, "longer than 134,217,728 bytes"));
    }
    Ok(bytes)
}

#[cfg(test)]
mod tests {
    use super::*;

    #[test]
    fn a_file_without_an_end_is_not_read_to_its_end() {
        assert!(read_from(io::repeat(0)).is_err());
        assert_eq!(read_from(&b"abc"[..]).ok(), Some(b"abc".to_vec()));
    }

    #[test]
    fn a_name_that_is_taken_is_not_taken_again() {
        let folder = fresh(&std::env::temp_dir().join("foldplover-tests-fresh-"));
        fs::create_dir(&folder).expect("the folder is new");
        for _ in 0..3 {
            let name = fresh(&folder.join("text."));
            fs::write(&name, b"").expect("the name is free");
        }
        assert_eq!(fs::read_dir(&folder).expect("the folder is read").count(), 3);
        fs::remove_dir_all(&folder).expect("the folder is removed");
    }
}
