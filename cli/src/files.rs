//! Files: read whole, and written beside the old one and then renamed, so that a failed write keeps it.

use crate::report::Failure;
use std::fs::{self, File, OpenOptions};
use std::io::{self, Read, Write};
use std::path::{Path, PathBuf};

/// More bytes than any input may have are not read: the library refuses such a length anyway.
const MOST: u64 = 16 << 20;

/// The bytes of a file; `-` is standard input.
pub fn read(name: &str) -> Result<Vec<u8>, Failure> {
    let mut bytes = Vec::new();
    let result = if name == "-" {
        io::stdin().lock().take(MOST).read_to_end(&mut bytes)
    } else {
        File::open(name).and_then(|file| file.take(MOST).read_to_end(&mut bytes))
    };
    result.map(|_| bytes).map_err(|error| Failure::File(format!("cannot read {name}: {error}")))
}

/// Writes a file. A regular file is replaced in one act, once all bytes are on the disk; a device or a pipe is written as it is.
pub fn write(name: &str, bytes: &[u8]) -> Result<(), Failure> {
    let failed = |error: io::Error| Failure::File(format!("cannot write {name}: {error}"));
    let target = fs::canonicalize(name).unwrap_or_else(|_| PathBuf::from(name));
    match fs::metadata(&target) {
        Ok(data) if data.is_dir() => Err(Failure::File(format!("cannot write {name}: it is a directory"))),
        Ok(data) if !data.is_file() => {
            OpenOptions::new().write(true).open(&target).and_then(|mut file| file.write_all(bytes)).map_err(failed)
        }
        Ok(data) => replace(&target, bytes, Some(data.permissions())).map_err(failed),
        Err(_) => replace(&target, bytes, None).map_err(failed),
    }
}

/// The new bytes under a name of their own in the same directory, then renamed; after a failure that file is removed.
fn replace(target: &Path, bytes: &[u8], permissions: Option<fs::Permissions>) -> io::Result<()> {
    let last = target.file_name().ok_or_else(|| io::Error::other("it is not the name of a file"))?;
    let beside = target.with_file_name(format!(".{}.{}", last.to_string_lossy(), std::process::id()));
    let written = fill(&beside, bytes, permissions).and_then(|()| fs::rename(&beside, target));
    if written.is_err() {
        let _ = fs::remove_file(&beside);
    }
    written
}

fn fill(name: &Path, bytes: &[u8], permissions: Option<fs::Permissions>) -> io::Result<()> {
    let mut file = OpenOptions::new().write(true).create_new(true).open(name)?;
    file.write_all(bytes)?;
    if let Some(permissions) = permissions {
        file.set_permissions(permissions)?;
    }
    file.sync_all()
}
