//! A file that is asked about: "Empty, too large, missing, directory: not read".

use crate::style::FILE_LIMIT;
use std::ffi::OsStr;
use std::fs::File;
use std::io::Read;

/// The bytes of a file, or why it is not read.
pub fn read(path: &OsStr) -> Result<Vec<u8>, String> {
    let mut bytes = Vec::new();
    File::open(path)
        .and_then(|file| file.take(FILE_LIMIT as u64 + 1).read_to_end(&mut bytes))
        .map_err(|error| error.to_string())?;
    if bytes.is_empty() {
        return Err("the file is empty".to_string());
    }
    if bytes.len() > FILE_LIMIT {
        return Err("the file is larger than 1,048,576 bytes".to_string());
    }
    Ok(bytes)
}
