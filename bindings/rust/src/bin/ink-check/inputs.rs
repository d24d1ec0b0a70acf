//! The story files that the given paths stand for.

use crate::arguments::Input;
use qaabireed::layout::EXTENSION;
use std::io::Result;
use std::path::{Path, PathBuf};

/// One thing that gets a line.
#[derive(Debug, PartialEq, Eq)]
pub enum Item {
    /// Standard input.
    Standard,
    /// A file to read.
    File(PathBuf),
    /// A path from which nothing can be had, and why.
    Unreadable(PathBuf, String),
}

impl From<Input> for Item {
    /// The input as a file, whatever it is.
    fn from(input: Input) -> Self {
        match input {
            Input::Standard => Item::Standard,
            Input::Path(path) => Item::File(path),
        }
    }
}

impl Item {
    /// The path as its line has it.
    pub fn path(&self) -> &[u8] {
        match self {
            Item::Standard => b"<stdin>",
            Item::File(path) | Item::Unreadable(path, _) => path.as_os_str().as_encoded_bytes(),
        }
    }
}

/// The items of all inputs, in the order given; those of a folder by name.
pub fn find(inputs: &[Input]) -> Vec<Item> {
    if inputs.is_empty() {
        return vec![Item::Standard];
    }
    inputs.iter().flat_map(items).collect()
}

/// The items of one input.
fn items(input: &Input) -> Vec<Item> {
    match input {
        Input::Path(path) if path.as_os_str().is_empty() => {
            vec![Item::Unreadable(
                path.clone(),
                "the path is empty".to_string(),
            )]
        }
        Input::Path(path) if path.is_dir() => {
            let mut found = Vec::new();
            search(path, &mut found);
            if found.is_empty() {
                let reason = format!("the folder has no story file (*.{EXTENSION})");
                found.push(Item::Unreadable(path.clone(), reason));
            }
            found
        }
        other => vec![Item::from(other.clone())],
    }
}

/// Adds the story files of a folder and of the folders in it.
fn search(folder: &Path, found: &mut Vec<Item>) {
    let members = match members(folder) {
        Ok(members) => members,
        Err(error) => return found.push(Item::Unreadable(folder.into(), error.to_string())),
    };
    for (path, is_folder) in members {
        if is_folder {
            search(&path, found);
        } else if path.extension().is_some_and(|end| end == EXTENSION) && !path.is_dir() {
            found.push(member(path));
        }
    }
}

/// A story file of a folder; what may never end, as a pipe, is read only where it is given itself.
fn member(path: PathBuf) -> Item {
    match path.metadata() {
        Ok(metadata) if !metadata.is_file() => {
            Item::Unreadable(path, "a pipe, socket or device, not a file".to_string())
        }
        _ => Item::File(path),
    }
}

/// What is in a folder, by name; a link to a folder is not one, so that no search goes in circles.
fn members(folder: &Path) -> Result<Vec<(PathBuf, bool)>> {
    let mut members = Vec::new();
    for member in std::fs::read_dir(folder)? {
        let member = member?;
        members.push((member.path(), member.file_type()?.is_dir()));
    }
    members.sort();
    Ok(members)
}
