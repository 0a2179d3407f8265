//! The numbers of document 01's table "Where each number is met", and of the tickets.

pub type Number = u32;

pub const SUCCESS: Number = 0;
pub const NO_SUCH_CONTEXT: Number = 1;
pub const NO_GROUP_NAME: Number = 2;
pub const NO_ACCESS_ENTRY: Number = 3;
pub const NO_SUCH_VIEW: Number = 4;
pub const NOT_IN_VIEW: Number = 5;
pub const NOT_SOUND: Number = 6;
pub const OUT_OF_RANGE: Number = 7;
pub const TABLE_FULL: Number = 9;
pub const ROW_ABSENT: Number = 10;
pub const STORAGE_FORBIDS: Number = 11;
pub const CONTEXT_TABLE: Number = 12;
pub const NO_INSTANCE: Number = 13;
pub const TORN: Number = 14;
pub const NOT_ASCENDING: Number = 15;
pub const END_OF_MIB_VIEW: Number = 17;
pub const ROW_HELD: Number = 18;
pub const NOT_A_SET: Number = 19;
