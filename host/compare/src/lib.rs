//! Comparing the proved archive with the crate elf, and its load plan with a plain rendering of the plan's rules.

pub mod compare;
pub mod damage;
pub mod hash_tables;
pub mod listed;
pub mod made;
pub mod maker;
pub mod oracle;
pub mod places;
pub mod plans;
pub mod port;
pub mod random;
pub mod reading;
pub mod recorded;
pub mod rendering;
pub mod shrink;
pub mod slow_files;
