//! What a run needs of a sheet. oracle.rs says whether the sheet reads, and with which number and
//! place if it does not; the fields of a sheet that reads are taken here. The oracle's own rule
//! for runs is not used.

use crate::field::Fault;
use crate::generator::fields;
use crate::sheet_parts::Range;
use crate::sheet_reads::reads;

pub struct Statement {
    pub least: u64,
    pub greatest: u64,
    pub code: u8,
    /// what stands behind the code
    pub operands: Vec<u8>,
}

pub struct Thread {
    pub registers: Vec<Range>,
    pub statements: Vec<Statement>,
}

pub struct Sheet {
    pub variables: Vec<Range>,
    pub threads: Vec<Thread>,
}

pub const HALT: u8 = 0;
pub const LOCK: u8 = 7;

/// "Numbers have the high byte first"; starting values and constants are signed.
pub fn signed(bytes: &[u8]) -> i32 {
    i32::from_be_bytes([bytes[0], bytes[1], bytes[2], bytes[3]])
}

/// Time limit, budget, label and number of locks play no part in a run.
pub fn read(bytes: &[u8]) -> Result<Sheet, Fault> {
    reads(bytes)?;
    let mut sheet = Sheet { variables: Vec::new(), threads: Vec::new() };
    for place in fields(bytes) {
        let body = &bytes[place + 3..];
        let range = |body: &[u8]| (signed(body), signed(&body[4..]));
        match bytes[place] {
            2 => sheet.variables.push(range(body)),
            4 => sheet.threads.push(Thread { registers: Vec::new(), statements: Vec::new() }),
            tag @ (5 | 6) => {
                let thread = sheet.threads.last_mut().expect("a thread is open");
                if tag == 5 {
                    thread.registers.push(range(body));
                } else {
                    let length = usize::from(u16::from_be_bytes([bytes[place + 1], bytes[place + 2]]));
                    thread.statements.push(statement(&body[..length]));
                }
            }
            _ => {}
        }
    }
    Ok(sheet)
}

fn statement(body: &[u8]) -> Statement {
    let time = |at: usize| u64::from(u16::from_be_bytes([body[at], body[at + 1]]));
    Statement { least: time(0), greatest: time(2), code: body[4], operands: body[5..].to_vec() }
}
