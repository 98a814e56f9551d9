//! Files that are written: whole or not at all, and never over an input.

use crate::input::Input;
use crate::names;
use crate::stop::{of_file, trouble, Stop};
use std::ffi::OsStr;
use std::fs::{self, File, Metadata, Permissions};
use std::io::{self, ErrorKind, Write};
use std::os::unix::fs::MetadataExt;
use std::path::{Path, PathBuf};
use std::process;

/// Where a file is to be written, with the permissions of the file that it replaces.
pub struct Target {
    pub name: String,
    path: PathBuf,
    permissions: Option<Permissions>,
}

/// Why a file that stands there is not written over.
fn objection(about: &Metadata, inputs: &[&Input]) -> Option<&'static str> {
    let identity = (about.dev(), about.ino());
    match about {
        _ if about.is_dir() => Some("is a directory"),
        _ if !about.is_file() => Some("is no regular file"),
        _ if inputs.iter().any(|input| input.identity == identity) => Some("is an input, and is not written over"),
        _ if about.permissions().readonly() => Some("is read-only"),
        _ => None,
    }
}

/// Why no new file can stand there.
fn new_objection(path: &Path) -> Option<&'static str> {
    match path.file_name() {
        None => Some("names no file"),
        _ if path.as_os_str().as_encoded_bytes().ends_with(b"/") => Some("names a folder that is not there"),
        _ if path.is_symlink() => Some("is a link to nothing"),
        _ if !folder_of(path).is_dir() => Some("its folder is not there"),
        _ => None,
    }
}

/// The folder that a file stands in.
fn folder_of(path: &Path) -> &Path {
    path.parent().filter(|folder| !folder.as_os_str().is_empty()).unwrap_or(Path::new("."))
}

/// A new file in a folder.
fn temporary(folder: &Path) -> io::Result<(PathBuf, File)> {
    let mut tried = 0;
    loop {
        let path = folder.join(format!(".farnkuppel-{}-{tried}", process::id()));
        match File::create_new(&path) {
            Err(error) if error.kind() == ErrorKind::AlreadyExists => tried += 1,
            made => return made.map(|file| (path, file)),
        }
    }
}

impl Target {
    /// The place of a file that can be written. Where a link leads to a file, that file is replaced and not the link.
    pub fn new(name: &OsStr, inputs: &[&Input]) -> Result<Target, Stop> {
        let shown = names::file(name);
        let standing = match fs::metadata(name) {
            Err(error) if error.kind() == ErrorKind::NotFound => None,
            found => Some(found.map_err(|error| of_file(&shown, &error))?),
        };
        let objection = match &standing {
            Some(about) => objection(about, inputs),
            None => new_objection(Path::new(name)),
        };
        if let Some(what) = objection {
            return Err(trouble(&format!("{shown}: {what}")));
        }
        let path = match &standing {
            Some(_) => fs::canonicalize(name).map_err(|error| of_file(&shown, &error))?,
            None => PathBuf::from(name),
        };
        Ok(Target { name: shown, path, permissions: standing.map(|about| about.permissions()) })
    }

    /// Writes the file under another name beside its place, and puts it there once it is whole.
    pub fn write(&self, bytes: &[u8]) -> Result<(), Stop> {
        let failed = |error: io::Error| of_file(&self.name, &error);
        let (path, mut file) = temporary(folder_of(&self.path)).map_err(failed)?;
        let written = file
            .write_all(bytes)
            .and_then(|()| file.sync_all())
            .and_then(|()| {
                self.permissions.iter().try_for_each(|as_before| fs::set_permissions(&path, as_before.clone()))
            })
            .and_then(|()| fs::rename(&path, &self.path));
        written.map_err(|error| {
            // What is wrong is already said; a file that cannot be removed either would be a second line.
            let _ = fs::remove_file(&path);
            failed(error)
        })
    }
}
