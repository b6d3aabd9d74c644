//! The status words (RULES 5.8) and the numbered refusals (RULES 3.2).

pub const SUCCESS: u16 = 0x9000;
/// Plus the tries that are left.
pub const WRONG_ENTRY: u16 = 0x63c0;
pub const WRONG_LENGTH: u16 = 0x6700;
pub const SECURITY_NOT_SATISFIED: u16 = 0x6982;
pub const DATA_INVALID: u16 = 0x6984;
pub const CONDITIONS_NOT_SATISFIED: u16 = 0x6985;
pub const WRONG_DATA: u16 = 0x6a80;
pub const NOT_FOUND: u16 = 0x6a82;
pub const NO_SPACE: u16 = 0x6a84;
pub const WRONG_P1_P2: u16 = 0x6a86;
pub const UNKNOWN_INSTRUCTION: u16 = 0x6d00;
pub const UNKNOWN_CLASS: u16 = 0x6e00;

pub const NOT_REFUSED: u8 = 0;
pub const UNSOUND: u8 = 1;
pub const SHORT_BUFFER: u8 = 2;
pub const WRONG_SUPPLY: u8 = 3;
pub const MALFORMED: u8 = 4;
pub const TOO_DEEP: u8 = 5;
pub const LONG_DATA: u8 = 6;
pub const NOT_GENUINE: u8 = 7;
pub const NOT_A_RECORD: u8 = 8;
pub const WRONG_COUNT: u8 = 9;
pub const NUMBER_TOO_LARGE: u8 = 10;
pub const WRONG_CHECKSUM: u8 = 11;
