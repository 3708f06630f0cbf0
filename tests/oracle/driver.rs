// The files of the supplied Rust as they stand, unchanged, and what its own lib.rs and cmd/mod.rs declare for them. A crate that has this module
// has `cmd` and `status` at its root too, where those files look for them.
#[path = "../../target/lr2021/status.rs"]
pub mod status;

#[path = "../../target/lr2021/cmd"]
pub mod cmd {
    pub mod cmd_common;
    pub mod cmd_fsk;
    pub mod cmd_lora;
    pub mod cmd_system;
    #[allow(unused_imports)]
    pub use cmd_fsk::{PulseShape, RxBw};
}

#[derive(Debug, Clone, Copy)]
pub enum Lr2021Error {
    Pin,
    Spi,
    CmdFail,
    CmdErr,
    BusyTimeout,
    InvalidSize,
    Unknown,
}
