//! Folders to mount on, and what tests of mounts have in common.
#![allow(dead_code, unused_macros)] // each test uses some of it

use std::fs::{self, File};
use std::path::PathBuf;
use std::process::Command;
use std::thread;
use std::time::Duration;

/// A new folder of this name. The test ends where nothing can be mounted.
macro_rules! folder {
    ($name:literal) => {
        match crate::folder::Folder::new($name) {
            Some(folder) => folder,
            None => return,
        }
    };
}

/// Whether this becomes true in ten seconds.
pub fn comes(mut is_so: impl FnMut() -> bool) -> bool {
    (0..2000).any(|_| {
        thread::sleep(Duration::from_millis(5));
        is_so()
    })
}

/// The number of the error of what failed.
pub fn number<T: std::fmt::Debug>(result: std::io::Result<T>) -> Option<i32> {
    result.unwrap_err().raw_os_error()
}

/// A new folder, which is removed at the end.
pub struct Folder(pub PathBuf);

impl Folder {
    /// Returns none where nothing can be mounted.
    pub fn new(name: &str) -> Option<Self> {
        if File::options().write(true).open("/dev/fuse").is_err() {
            eprintln!("{name}: nothing is mounted, since /dev/fuse cannot be opened.");
            return None;
        }
        let path = std::env::temp_dir().join(format!("nizwarf-{name}-{}", std::process::id()));
        fs::create_dir(&path).unwrap();
        Some(Folder(path))
    }

    /// Returns its line in the list of mounts.
    pub fn line(&self) -> Option<String> {
        let lines = fs::read_to_string("/proc/self/mountinfo").unwrap();
        let at = format!(" {} ", self.0.display());
        lines.lines().find(|line| line.contains(&at)).map(String::from)
    }
}

impl Drop for Folder {
    fn drop(&mut self) {
        if self.line().is_some() {
            let _ = Command::new("umount").arg("-l").arg(&self.0).status();
        }
        let _ = fs::remove_dir(&self.0);
    }
}
