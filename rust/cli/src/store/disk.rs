//! The files of a store.

use std::fs::{self, File, OpenOptions, TryLockError};
use std::io::{self, ErrorKind, Read, Seek, SeekFrom, Write};
use std::path::{Path, PathBuf};

/// What is done with the files, each by itself, so that a test can stop between any two of them.
pub trait Disk {
    fn read_log(&mut self) -> io::Result<Vec<u8>>;
    /// None if there is none, or if it cannot be read.
    fn read_copy(&mut self) -> Option<Vec<u8>>;
    /// Writes at the log's end.
    fn append(&mut self, bytes: &[u8]) -> io::Result<()>;
    fn sync_log(&mut self) -> io::Result<()>;
    fn cut_log(&mut self, length: u64) -> io::Result<()>;
    /// Writes a copy beside the one that is there.
    fn write_copy(&mut self, bytes: &[u8]) -> io::Result<()>;
    fn sync_copy(&mut self) -> io::Result<()>;
    /// Puts the copy written in the place of the one that is there.
    fn rename_copy(&mut self) -> io::Result<()>;
    fn sync_folder(&mut self) -> io::Result<()>;
}

/// A folder, held alone as long as this is there.
pub struct Folder {
    path: PathBuf,
    /// Locked, and opened for writing at its end.
    log: File,
    /// The copy that is written.
    new: Option<File>,
}

impl Folder {
    /// Opens a folder, which is made if it is not there; none if another process has it. A folder with other files and no log is left alone.
    pub fn open(path: &Path) -> io::Result<Option<Self>> {
        match fs::create_dir(path) {
            Ok(()) => sync_folder(path.parent().filter(|parent| !parent.as_os_str().is_empty()).unwrap_or(Path::new(".")))?,
            Err(reason) if reason.kind() != ErrorKind::AlreadyExists => return Err(reason),
            Err(_) if !path.join("log").exists() && fs::read_dir(path)?.next().is_some() => {
                return Err(io::Error::other("neither empty nor a store: there are files and no log"));
            }
            Err(_) => (),
        }
        let log = OpenOptions::new().read(true).append(true).create(true).open(path.join("log"))?;
        match log.try_lock() {
            Ok(()) => Ok(Some(Folder { path: path.to_path_buf(), log, new: None })),
            Err(TryLockError::WouldBlock) => Ok(None),
            Err(TryLockError::Error(reason)) => Err(reason),
        }
    }
}

impl Disk for Folder {
    fn read_log(&mut self) -> io::Result<Vec<u8>> {
        let mut bytes = Vec::new();
        self.log.seek(SeekFrom::Start(0))?;
        self.log.read_to_end(&mut bytes)?;
        Ok(bytes)
    }

    fn read_copy(&mut self) -> Option<Vec<u8>> {
        fs::read(self.path.join("memory")).ok()
    }

    fn append(&mut self, bytes: &[u8]) -> io::Result<()> {
        self.log.write_all(bytes)
    }

    fn sync_log(&mut self) -> io::Result<()> {
        self.log.sync_data()
    }

    fn cut_log(&mut self, length: u64) -> io::Result<()> {
        self.log.set_len(length)
    }

    fn write_copy(&mut self, bytes: &[u8]) -> io::Result<()> {
        let mut new = File::create(self.path.join("memory.new"))?;
        new.write_all(bytes)?;
        self.new = Some(new);
        Ok(())
    }

    fn sync_copy(&mut self) -> io::Result<()> {
        self.new.take().map_or(Ok(()), |new| new.sync_all())
    }

    fn rename_copy(&mut self) -> io::Result<()> {
        fs::rename(self.path.join("memory.new"), self.path.join("memory"))
    }

    fn sync_folder(&mut self) -> io::Result<()> {
        sync_folder(&self.path)
    }
}

/// Brings the names of a folder's files to the disk.
fn sync_folder(path: &Path) -> io::Result<()> {
    File::open(path)?.sync_all()
}
