//! Numbered days in a directory: NUMBER.trace, NUMBER.enrolments and NUMBER.expected, and a list of their numbers and names.

use crate::reference::day;
use std::fs;
use std::path::PathBuf;

pub struct Files {
    directory: PathBuf,
    names: Vec<String>,
}

impl Files {
    pub fn new(directory: &str) -> Files {
        fs::create_dir_all(directory).expect("the directory can be made");
        Files { directory: directory.into(), names: Vec::new() }
    }

    /// A day, with what must be printed of it as it was worked out beside the reference.
    pub fn day(&mut self, name: &str, trace: &[u8], enrolments: &[u8], expected: &str) {
        assert_eq!(day::play(trace, enrolments), expected, "{}", name);
        self.names.push(name.to_string());
        let number = format!("{:04}", self.names.len());
        put(&self.directory, &format!("{}.trace", number), trace);
        put(&self.directory, &format!("{}.enrolments", number), enrolments);
        put(&self.directory, &format!("{}.expected", number), expected.as_bytes());
    }

    pub fn write_list(&self) {
        let line = |(i, name): (usize, &String)| format!("{:04} {}\n", i + 1, name);
        let list: String = self.names.iter().enumerate().map(line).collect();
        put(&self.directory, "list", list.as_bytes());
    }
}

pub fn put(directory: &PathBuf, name: &str, bytes: &[u8]) {
    fs::write(directory.join(name), bytes).unwrap_or_else(|error| panic!("{}: {}", name, error));
}
