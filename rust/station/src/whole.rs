//! Files that are replaced whole: a failure on the way, also of the computer, leaves the old file as it was.
use std::ffi::OsString;
use std::fs::{self, File};
use std::io::{Error, ErrorKind, Result, Write};
use std::path::{Path, PathBuf};

/// Where the new file grows, beside the old one, so that both are of one file system.
fn part(path: &Path) -> Result<PathBuf> {
    let mut name = OsString::from(path.file_name().ok_or(ErrorKind::InvalidInput)?);
    name.push(format!(".{}.part", std::process::id()));
    Ok(path.with_file_name(name))
}

/// The folder of a file.
fn folder(path: &Path) -> &Path {
    path.parent().filter(|parent| !parent.as_os_str().is_empty()).unwrap_or(Path::new("."))
}

/// Begins a new file beside the old one. What is no plain file, such as a folder or a device, is not replaced.
fn begin(path: &Path) -> Result<(PathBuf, File)> {
    if fs::metadata(path).is_ok_and(|old| !old.is_file()) {
        return Err(Error::new(ErrorKind::InvalidInput, "it is there, and is no plain file"));
    }
    let part = part(path)?;
    let file = File::create_new(&part)?;
    Ok((part, file))
}

/// Writes a file by `write`, all of it or nothing: it grows beside the old one, reaches the disk, and takes its place.
fn replace_by(path: &Path, write: impl FnOnce(&mut File) -> Result<()>) -> Result<()> {
    let (part, mut file) = begin(path)?;
    let written = write(&mut file).and_then(|()| file.sync_all());
    match written.and_then(|()| fs::rename(&part, path)) {
        // the new name reaches the disk with the folder
        Ok(()) => File::open(folder(path))?.sync_all(),
        Err(why) => {
            // where that fails too, a part of a file stays beside the old one
            let _ = fs::remove_file(&part);
            Err(why)
        }
    }
}

/// Writes a file of this text, all of it or nothing.
pub fn replace(path: &Path, text: &str) -> Result<()> {
    replace_by(path, |file| file.write_all(text.as_bytes()))
}

/// Whether a file can be written, tried before a long run: a new one is begun and taken away, and an old one stays.
pub fn can_replace(path: &Path) -> Result<()> {
    fs::remove_file(begin(path)?.0)
}

#[cfg(test)]
mod tests {
    use super::*;

    /// A folder for one test.
    fn scratch(name: &str) -> PathBuf {
        let folder = std::env::temp_dir().join(format!("c51-station-{name}-{}", std::process::id()));
        fs::create_dir_all(&folder).expect("a folder");
        folder
    }

    fn names(folder: &Path) -> Vec<String> {
        let mut names: Vec<String> =
            fs::read_dir(folder).unwrap().map(|entry| entry.unwrap().file_name().into_string().unwrap()).collect();
        names.sort();
        names
    }

    #[test]
    fn a_file_is_replaced() {
        let folder = scratch("replaced");
        let path = folder.join("a file");
        for text in ["first", "", "the second, which is longer"] {
            replace(&path, text).unwrap();
            assert_eq!((fs::read_to_string(&path).unwrap().as_str(), names(&folder)), (text, vec!["a file".to_string()]));
        }
        fs::remove_dir_all(folder).unwrap();
    }

    /// A write that fails on the way, at any place, leaves the old file, and no part of the new one.
    #[test]
    fn a_write_that_fails() {
        let folder = scratch("fails");
        let path = folder.join("moved");
        replace(&path, "the old file").unwrap();
        for bytes in 0..20 {
            let failed = replace_by(&path, |file| {
                file.write_all(&b"the new file, much longer"[..bytes])?;
                Err(ErrorKind::StorageFull.into())
            });
            assert_eq!(failed.unwrap_err().kind(), ErrorKind::StorageFull);
            assert_eq!((fs::read_to_string(&path).unwrap().as_str(), names(&folder)), ("the old file", vec!["moved".to_string()]));
        }
        fs::remove_dir_all(folder).unwrap();
    }

    #[test]
    fn what_cannot_be_replaced() {
        let folder = scratch("refused");
        let inside = folder.join("inside");
        fs::create_dir(&inside).unwrap();
        let missing = folder.join("no-such-folder/moved");
        for path in [&inside, &missing, Path::new("/dev/null"), Path::new("/"), Path::new("")] {
            assert!(can_replace(path).is_err() && replace(path, "text").is_err(), "{}", path.display());
        }
        assert_eq!(names(&folder), ["inside"]);
        fs::remove_dir_all(folder).unwrap();
    }

    #[test]
    fn trying_leaves_everything() {
        let folder = scratch("tried");
        let path = folder.join("moved");
        can_replace(&path).unwrap();
        assert_eq!(names(&folder), [""; 0]);
        replace(&path, "text").unwrap();
        can_replace(&path).unwrap();
        assert_eq!((fs::read_to_string(&path).unwrap().as_str(), names(&folder)), ("text", vec!["moved".to_string()]));
        fs::remove_dir_all(folder).unwrap();
    }
}
