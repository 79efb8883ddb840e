//! The bounds of the file formats.

pub const COMPONENTS: usize = 1_024;
pub const CONNECTIONS: usize = 4_096;
pub const BASE_DELAY: u32 = 65_535;
pub const TIME: i32 = 100_000_000;
/// Both the share and an increment stay within this.
pub const INCREMENT: u32 = 200_000_000;
