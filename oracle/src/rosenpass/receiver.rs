//! receiver.rs, unchanged, among stand-ins for the crates that it names; behind it, what reaches its
//! private parts.

use crate::receiver_standins::{derive_more, mio, rustix, strum, zerocopy};

include!(env!("ROSENPASS_RECEIVER"));

/// A state, for callers outside.
#[derive(Clone, Copy)]
pub struct State(OperationalState);

impl State {
    pub fn normal() -> Self {
        Self(Normal::new().into())
    }

    pub fn draining(failure: ShmStreamError) -> Self {
        Self(Draining::new(failure).into())
    }

    pub fn terminated(failure: ShmStreamError) -> Self {
        Self(Terminated::new(failure).into())
    }

    pub fn is_draining(self) -> bool {
        self.0.is_draining()
    }

    pub fn is_terminated(self) -> bool {
        self.0.is_terminated()
    }

    pub fn failure(self) -> Option<ShmStreamError> {
        self.0.failure()
    }

    pub fn with_failure(self, reason: ShmStreamError) -> Self {
        Self(self.0.with_failure(reason))
    }

    pub fn with_potential_failure(self, reason: Option<ShmStreamError>) -> Self {
        Self(self.0.with_potential_failure(reason))
    }

    pub fn normalize(self) -> Self {
        Self(self.0.normalize())
    }

    pub fn advance_state_towards_termination(self, advanced: Self) -> Self {
        Self(self.0.advance_state_towards_termination(advanced.0))
    }
}

impl ReceiverState {
    /// In the midst of a stream.
    pub fn amid(self, state: State, pending_ack_count: usize, shutdown_issued: bool) -> Self {
        Self {
            state: state.0,
            pending_ack_count,
            notification_socket_shutdown_issued: shutdown_issued.then_some(()),
            ..self
        }
    }

    pub fn parts(&self) -> (RingBufferScheduler, State, usize, bool) {
        (
            self.scheduler,
            State(self.state),
            self.pending_ack_count,
            self.notification_socket_shutdown_issued.is_some(),
        )
    }
}
