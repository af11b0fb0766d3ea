//! The roster line: its names, or the first place at which it is at fault.
use crate::{label, Refusal, SPECIES};

/// The names, decoded, or 1 with the least place at fault: every fault lies at or behind the beginning of the label that is scanned, so the first that is met is the least.
pub fn names(line: &[u8]) -> Result<Vec<Vec<u8>>, Refusal> {
    names_up_to(SPECIES, line)
}

/// The same for a roster of so many names at most.
pub fn names_up_to(most: usize, line: &[u8]) -> Result<Vec<Vec<u8>>, Refusal> {
    let mut found: Vec<Vec<u8>> = Vec::new();
    let mut at = 0;
    loop {
        let from = at;
        if from == line.len() || !label::begins(line[from]) || found.len() == most {
            return Err((1, from));
        }
        let (name, behind) = label::scan(line, from).map_err(|(_, place)| (1, place))?;
        if found.contains(&name) {
            return Err((1, from));
        }
        found.push(name);
        match line.get(behind) {
            None => return Ok(found),
            Some(b' ') => at = behind + 1,
            Some(_) => return Err((1, behind)),
        }
    }
}

/// The line that has these names, each written as the writer does.
pub fn joined(names: &[Vec<u8>]) -> Vec<u8> {
    names.iter().map(|name| label::written(name)).collect::<Vec<_>>().join(&b' ')
}
