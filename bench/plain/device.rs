//! What a store is written on: a device in memory, or one in a file.

use crate::log::Device;
use std::fs::{File, OpenOptions};
use std::io;
use std::os::unix::fs::FileExt;
use std::path::Path;

/// A call that its device failed.
#[derive(Clone, Copy, Debug)]
pub struct Failure;

pub trait Sectors {
    fn write(&mut self, at: usize, bytes: &[u8]) -> Result<(), Failure>;

    fn sync(&mut self) -> Result<(), Failure>;
}

impl Sectors for Device {
    fn write(&mut self, at: usize, bytes: &[u8]) -> Result<(), Failure> {
        Device::write(self, at, bytes);
        Ok(())
    }

    fn sync(&mut self) -> Result<(), Failure> {
        Device::sync(self);
        Ok(())
    }
}

/// A device in a file.
pub struct FileDevice {
    file: File,
    /// Whether it is as long as what was written. Else it has its length from the start on, and a sync needn't keep that.
    grows: bool,
}

impl FileDevice {
    /// One of so many zeros, which are written.
    pub fn new(path: &Path, length: usize) -> io::Result<FileDevice> {
        let device = FileDevice {
            file: created(path)?,
            grows: false,
        };
        device.file.write_all_at(&vec![0; length], 0)?;
        device.file.sync_all()?;
        Ok(device)
    }

    /// An empty one.
    pub fn growing(path: &Path) -> io::Result<FileDevice> {
        Ok(FileDevice {
            file: created(path)?,
            grows: true,
        })
    }
}

fn created(path: &Path) -> io::Result<File> {
    let mut options = OpenOptions::new();
    options.write(true).create(true).truncate(true).open(path)
}

impl Sectors for FileDevice {
    fn write(&mut self, at: usize, bytes: &[u8]) -> Result<(), Failure> {
        let written = self.file.write_all_at(bytes, at as u64);
        written.map_err(|_| Failure)
    }

    fn sync(&mut self) -> Result<(), Failure> {
        let synced = if self.grows {
            self.file.sync_all()
        } else {
            self.file.sync_data()
        };
        synced.map_err(|_| Failure)
    }
}
