//! Files that are written whole or not at all.
use crate::failure::Failure;
use amx::UNIT_NOTE;
use std::{
    fs::{self, File, Metadata, OpenOptions},
    io::{self, BufWriter, ErrorKind, Seek, SeekFrom, StdoutLock, Write},
    path::{Path, PathBuf},
    process,
};

/// Which file it is, whatever its names are.
#[derive(Clone, Debug, PartialEq, Eq)]
pub struct Identity(#[cfg(unix)] (u64, u64), #[cfg(not(unix))] PathBuf);

impl Identity {
    /// Of what is a file, and no pipe or device.
    #[cfg(unix)]
    pub fn of(_: &Path, metadata: &Metadata) -> Option<Self> {
        use std::os::unix::fs::MetadataExt;
        metadata.is_file().then(|| Identity((metadata.dev(), metadata.ino())))
    }

    #[cfg(not(unix))]
    pub fn of(path: &Path, metadata: &Metadata) -> Option<Self> {
        fs::canonicalize(path).ok().filter(|_| metadata.is_file()).map(Identity)
    }

    /// Of the file that standard input comes from or standard output goes to, where there is one.
    #[cfg(unix)]
    pub fn of_stream(stream: impl std::os::fd::AsFd) -> Option<Self> {
        let file = File::from(stream.as_fd().try_clone_to_owned().ok()?);
        Self::of(Path::new(""), &file.metadata().ok()?)
    }

    #[cfg(not(unix))]
    pub fn of_stream<S>(_: S) -> Option<Self> {
        None
    }
}

/// Standard output, for lines. The first one says so where the steps are not the proved unit's.
pub fn lines() -> io::Result<BufWriter<StdoutLock<'static>>> {
    let mut output = BufWriter::new(io::stdout().lock());
    if let Some(note) = UNIT_NOTE {
        writeln!(output, "# {note}")?;
    }
    Ok(output)
}

/// Why an output, by its name, cannot be written.
pub fn failed(name: &str) -> impl Fn(io::Error) -> Failure {
    move |error| if name == "-" { Failure::Output(error) } else { Failure::of_file(name, error) }
}

/// A file that is being written. It has its name when it is committed: before that it has a new one, and is removed where it is dropped.
/// What is no file (a pipe, a device, standard output as `-`) is written to as it is.
pub struct Output {
    name: String,
    to: To,
    names: Option<Names>,
}

/// A file that is written, and has not its name yet: it is removed where it is dropped.
pub struct Finished {
    name: String,
    names: Option<Names>,
}

/// The new name, and the one that the file gets.
type Names = (PathBuf, PathBuf);

enum To {
    File(File),
    StandardOutput(io::Stdout),
}

impl Output {
    /// Begins a file. One that is an input, by whatever name, would be lost, and is not written to.
    pub fn create(name: &str, inputs: &[Identity]) -> Result<Self, Failure> {
        if name == "-" {
            return Ok(Output { name: name.to_owned(), to: To::StandardOutput(io::stdout()), names: None });
        }
        let (path, failed) = (Path::new(name), failed(name));
        let there = fs::metadata(path).ok();
        if there.as_ref().and_then(|there| Identity::of(path, there)).is_some_and(|file| inputs.contains(&file)) {
            return Err(Failure::Usage(format!("{name}: this is what is read, and would be lost: name another file to write")));
        }
        if there.is_some() {
            // what may not be written to is not replaced either
            let file = OpenOptions::new().write(true).open(path).map_err(&failed)?;
            if there.as_ref().is_some_and(|there| !there.is_file()) {
                return Ok(Output { name: name.to_owned(), to: To::File(file), names: None });
            }
        }
        let whole = linked(path);
        let (part, file) = create_beside(&whole).map_err(&failed)?;
        let output = Output { name: name.to_owned(), to: To::File(file), names: Some((part.clone(), whole)) };
        if let Some(there) = there {
            fs::set_permissions(&part, there.permissions()).map_err(failed)?;
        }
        Ok(output)
    }

    /// Has all bytes stay where they are.
    pub fn finish(mut self) -> Result<Finished, Failure> {
        let settled = match (&mut self.to, &self.names) {
            (To::File(file), Some(_)) => file.sync_all(),
            (to, _) => to.flush(),
        };
        settled.map_err(failed(&self.name))?;
        Ok(Finished { name: std::mem::take(&mut self.name), names: self.names.take() })
    }
}

impl Finished {
    /// Gives the file its name.
    pub fn commit(mut self) -> Result<(), Failure> {
        match self.names.take() {
            Some((part, whole)) => {
                let renamed = fs::rename(&part, &whole).inspect_err(|_| drop(fs::remove_file(&part)));
                renamed.map_err(failed(&self.name))
            }
            None => Ok(()),
        }
    }
}

/// Removes what has not its name yet.
fn remove(names: &Option<Names>) {
    if let Some((part, _)) = names {
        let _ = fs::remove_file(part);
    }
}

impl Drop for Output {
    fn drop(&mut self) {
        remove(&self.names);
    }
}

impl Drop for Finished {
    fn drop(&mut self) {
        remove(&self.names);
    }
}

/// Where a link leads to, so that it stays a link, also where nothing is there yet.
fn linked(path: &Path) -> PathBuf {
    let followed = || fs::read_link(path).map(|to| path.parent().map_or(to.clone(), |parent| parent.join(to)));
    fs::canonicalize(path).or_else(|_| followed()).unwrap_or_else(|_| path.to_owned())
}

/// A new file in the same directory: no file that is there is written to.
fn create_beside(whole: &Path) -> io::Result<(PathBuf, File)> {
    if whole.file_name().is_none() {
        return Err(io::Error::new(ErrorKind::InvalidInput, "expected the name of a file"));
    }
    create_new(|number| whole.with_file_name(format!(".amx-{}-{number}", process::id())))
}

/// A new file under the first of some names that no file has.
pub fn create_new(name: impl Fn(u32) -> PathBuf) -> io::Result<(PathBuf, File)> {
    for number in 0..1_000 {
        let path = name(number);
        match OpenOptions::new().read(true).write(true).create_new(true).open(&path) {
            Err(error) if error.kind() == ErrorKind::AlreadyExists => {}
            opened => return opened.map(|file| (path, file)),
        }
    }
    Err(io::Error::new(ErrorKind::AlreadyExists, "there is no new name for a file that is being written"))
}

impl Write for To {
    fn write(&mut self, bytes: &[u8]) -> io::Result<usize> {
        match self {
            To::File(file) => file.write(bytes),
            To::StandardOutput(output) => output.write(bytes),
        }
    }

    fn flush(&mut self) -> io::Result<()> {
        match self {
            To::File(file) => file.flush(),
            To::StandardOutput(output) => output.flush(),
        }
    }
}

impl Write for Output {
    fn write(&mut self, bytes: &[u8]) -> io::Result<usize> {
        self.to.write(bytes)
    }

    fn flush(&mut self) -> io::Result<()> {
        self.to.flush()
    }
}

impl Seek for Output {
    fn seek(&mut self, to: SeekFrom) -> io::Result<u64> {
        match &mut self.to {
            To::File(file) => file.seek(to),
            To::StandardOutput(_) => Err(ErrorKind::NotSeekable.into()),
        }
    }
}

#[cfg(test)]
mod tests {
    use super::*;

    #[test]
    fn a_file_that_has_the_new_name_is_not_written_to() {
        let directory = std::env::temp_dir().join(format!("amx-new-names-{}", process::id()));
        fs::create_dir_all(&directory).unwrap();
        let name = |number| directory.join(format!("part.{number}"));
        fs::write(name(0), "another's").unwrap();
        let (first, _) = create_new(name).unwrap();
        let (second, _) = create_new(name).unwrap();
        assert_eq!((first, second), (name(1), name(2)));
        assert_eq!(fs::read(name(0)).unwrap(), b"another's");
        assert!(create_new(|_| name(0)).is_err());
        assert!(create_new(|_| directory.join("none/part")).is_err());
        fs::remove_dir_all(&directory).unwrap();
    }

    #[test]
    fn what_is_dropped_leaves_nothing() {
        let directory = std::env::temp_dir().join(format!("amx-dropped-{}", process::id()));
        fs::create_dir_all(&directory).unwrap();
        let target = directory.join("target");
        let mut output = Output::create(target.to_str().unwrap(), &[]).unwrap();
        output.write_all(b"half").unwrap();
        assert_eq!(fs::read_dir(&directory).unwrap().count(), 1);
        drop(output);
        assert_eq!(fs::read_dir(&directory).unwrap().count(), 0);
        let mut output = Output::create(target.to_str().unwrap(), &[]).unwrap();
        output.write_all(b"whole").unwrap();
        assert!(output.finish().and_then(Finished::commit).is_ok() && fs::read(&target).unwrap() == b"whole");
        fs::remove_dir_all(&directory).unwrap();
    }
}
