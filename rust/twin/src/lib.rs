//! What the proved library is compared with: the store in plain Rust, for its times; and an independent second program,
//! call by call (`pair`) and, of a series, place by place (`readers`).
pub mod calls;
pub mod damaged;
pub mod encoding;
pub mod faults;
pub mod forgery;
pub mod harm;
pub mod identifiers;
pub mod inputs;
pub mod model;
pub mod pair;
pub mod plain;
pub mod plain_series;
pub mod random;
pub mod readers;
pub mod readings;
pub mod recordings;
pub mod reports;
pub mod runs;
pub mod series;
pub mod table;
pub mod walks;
