//! The numbers of the refusals.

pub const TEXT_TOO_LONG: u32 = 1;
pub const BAD_LINE: u32 = 2;
pub const OUT_OF_RANGE: u32 = 3;
pub const TOO_MANY_FAILURES: u32 = 4;
pub const DELAY_TO_ITSELF: u32 = 5;
pub const BAD_EDGE: u32 = 6;
pub const CIRCLE: u32 = 7;
pub const OUTPUT_TOO_SHORT: u32 = 8;
pub const OTHER_JOB: u32 = 9;
pub const TASK_OUT_OF_TURN: u32 = 10;
pub const PROCESSORS_DESCEND: u32 = 11;
pub const WRONG_TICK: u32 = 13;
pub const WRONG_MAKESPAN: u32 = 14;
pub const STOPS_OUT_OF_ORDER: u32 = 15;
pub const EDGES_DESCEND: u32 = 16;
