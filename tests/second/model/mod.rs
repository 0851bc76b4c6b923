//! The model: 01 with what 02 has changed, as plain as it can be written. It knows nothing of the
//! driver, nor of what is drawn for it.

pub mod before;
pub mod boxes;
pub mod calls;
pub mod plan;
pub mod refusals;
pub mod report_program;
pub mod reports;
pub mod rows;
pub mod sheets;
