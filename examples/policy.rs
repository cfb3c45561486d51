//! Policies in files, for the examples that read some: the table's words (low byte first) and then the marks, as samples/README.md has it.

pub struct Policy {
    pub words: Vec<u16>,
    pub marks: Vec<u8>,
}

pub fn read_policy(file: &str) -> Result<Policy, String> {
    let bytes = std::fs::read(file).map_err(|_| format!("{file}: cannot be read"))?;
    if bytes.len() > 8192 {
        return Err(format!("{file}: over 8,192 bytes"));
    }
    let mut words: Vec<u16> = bytes.chunks_exact(2).map(|pair| u16::from_le_bytes([pair[0], pair[1]])).collect();
    if let Some(&length) = words.get(1) {
        words.truncate(length.into());
    }
    let marks = bytes[2 * words.len()..].to_vec();
    Ok(Policy { words, marks })
}

/// The marks of all files one after another, if each is of the first one's table.
pub fn read_marks(files: &[String], first: &Policy) -> Result<Vec<u8>, String> {
    let mut all = Vec::new();
    for file in files {
        let other = read_policy(file)?;
        if other.words != first.words {
            return Err(format!("{file}: another table than that of the first file"));
        }
        if other.marks.len() != first.marks.len() {
            return Err(format!("{file}: not as many marks as the first file has"));
        }
        all.extend(other.marks);
    }
    Ok(all)
}
