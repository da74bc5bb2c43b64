//! Stands in for `underhill_confidentiality`: a name that `cmdline.rs` looks for in a command line.
//! No command line is read here, so the value does not matter.

pub const OPENHCL_CONFIDENTIAL_DEBUG_ENV_VAR_NAME: &str = "OPENHCL_CONFIDENTIAL_DEBUG";
