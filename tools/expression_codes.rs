//! The codes that expressions have in a sheet (01, "The sheet"). A module of texts.rs and prints.rs.

pub const CONSTANT: u8 = 16;
pub const REGISTER: u8 = 17;
pub const PLUS: u8 = 18;
pub const MINUS: u8 = 19;
pub const TIMES: u8 = 20;
pub const DIVIDE: u8 = 21;
pub const TRUE: u8 = 32;
pub const FALSE: u8 = 33;
pub const NOT: u8 = 34;
pub const AND: u8 = 35;
pub const EQUAL: u8 = 36;
pub const LESS: u8 = 37;
