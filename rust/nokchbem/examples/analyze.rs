//! `analyze SHEET`: prints the answer to the sheet in a file, or its refusal.

use nokchbem::{TABLES_LENGTH, WORK_LENGTH};
use std::error::Error;
use std::io::Write;

fn main() -> Result<(), Box<dyn Error>> {
    let path = std::env::args().nth(1).ok_or("usage: analyze SHEET")?;
    let sheet = std::fs::read(path)?;
    let (mut tables, mut work) = (vec![0; TABLES_LENGTH], vec![0; WORK_LENGTH]);
    let mut answer = vec![0; 65_536];
    let analyzed = nokchbem::analyze(&sheet, &mut tables, &mut work, &mut answer);
    let length = analyzed.map_err(|refusal| refusal.to_string())?;
    std::io::stdout().write_all(&answer[..length])?;
    Ok(())
}
