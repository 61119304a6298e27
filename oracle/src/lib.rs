//! The unchanged Rust of rosenpass, as a library, and its answers as plain numbers; and what stands in where the
//! Rust has nothing.

pub mod fill_model;
pub mod lines;
pub mod modular_answers;
pub mod overflow;
pub mod planner_model;
pub mod receiver_answers;
pub mod receiver_standins;
pub mod ringplan;
pub mod sched_answers;
pub mod sched_flat;
pub mod scripted_socket;
pub mod standins;
pub mod stripplan;

/// The rosenpass files, each a module, compiled where they lie (see build.rs).
pub mod rosenpass {
    include!(concat!(env!("OUT_DIR"), "/rosenpass.rs"));
    pub mod receiver;

    // What receiver.rs has from the module above it.
    pub use crate::receiver_standins::{ShmProtocolViolation, ShmStreamError, shared};
}

/// The module tree that their `use` lines want.
pub mod internal {
    pub mod util {
        pub use crate::receiver_standins::{io, util_rustix as rustix};
        pub use crate::standins::{convert, functional, mem, result};
        pub mod int {
            pub use crate::rosenpass::modular;
            pub use crate::standins::u64uint;
        }
        pub mod ringbuf {
            pub use crate::rosenpass::sched;
        }
    }
}
