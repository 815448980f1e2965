//! What the Rust text names and does not have, one file for each thing it stands for. Each file says what leans on it.

pub(crate) mod code_tables;
pub(crate) mod encoder;
pub(crate) mod messages;
pub(crate) mod num;
pub(crate) mod octets;
pub(crate) mod template_helpers;
pub(crate) mod templates;
