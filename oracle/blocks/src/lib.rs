//! Records of a log and the lines of a block, without any rule of a controller.
pub mod record;
pub mod rows;
