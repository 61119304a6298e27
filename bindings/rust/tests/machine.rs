//! The receiver's machine as a host drives it, one answer at a time: an answer that is refused changes nothing, and each
//! acknowledgement goes out once.

use std::io::{ErrorKind, Read, Write};
use std::os::unix::net::UnixStream;
use stripring::{Answer, Call, Failure, Outcome, Receiver, Refusal, Scheduler, State, Wait, abi};

type Result = std::result::Result<(), Box<dyn std::error::Error>>;

/// A chunk of one byte that fills the ring, so that each begins where the one before did.
const RING: &[u8; 9] = b"\0\0\0\0\0\0\0\x01s";
const MAX_BATCH: usize = 128;

/// A receiver that has read so many chunks and could acknowledge none.
fn with_pending(count: u64) -> Receiver {
    let mut receiver = Receiver::new(Scheduler::new(9).unwrap());
    for _ in 0..count {
        let answers = [Answer::received(0, 0), Answer::failed(11)];
        let read = receiver.read_with_fds(RING, &mut [0], 0, &answers);
        assert_eq!(read.unwrap().used, 2);
    }
    assert_eq!(receiver.pending_acknowledgements(), count);
    receiver
}

// ---- a refused answer

#[test]
fn a_misfit_amid_a_service_changes_nothing() -> Result {
    let misfits = [
        Answer::received(0, 0),
        Answer::closed(),
        Answer::failed(0),
        Answer::failed(4096),
        Answer::sent(129),
        Answer::done(),
    ];
    let mut receiver = with_pending(300);
    let mut call = receiver.begin_service()?;
    call.answered(&[], Answer::sent(128))?;
    for misfit in misfits {
        assert_eq!(
            call.answered(&[], misfit),
            Err(Refusal::Misfit { place: 2 })
        );
        assert_eq!(call.waits_for(), Some(Wait::Send { batch: 128 }));
    }
    call.answered(&[], Answer::sent(128))?;
    assert_eq!(call.waits_for(), Some(Wait::Send { batch: 44 }));
    call.answered(&[], Answer::sent(44))?;
    assert_eq!(call.end(), Ok(Outcome::Done));
    assert_eq!(receiver.pending_acknowledgements(), 0);
    Ok(())
}

#[test]
fn a_beginning_that_is_refused_changes_nothing() {
    let (mut receiver, before) = (with_pending(3), with_pending(3));
    let mut bytes = [0];
    let begun = receiver.begin_read(&RING[1..], &mut bytes, 0);
    assert_eq!(begun.unwrap_err(), Refusal::RingMemory);
    assert_eq!(receiver, before);
}

#[test]
fn a_call_that_still_waits_has_no_outcome() -> Result {
    let mut receiver = with_pending(3);
    assert_eq!(receiver.begin_service()?.end(), Err(Refusal::AnswerMissing));
    assert_eq!(receiver, with_pending(3));
    Ok(())
}

// ---- the ring

#[test]
fn the_ring_is_looked_at_where_a_byte_was_received() -> Result {
    let mut receiver = with_pending(0);
    let mut bytes = [0];
    let mut call = receiver.begin_read(RING, &mut bytes, 0)?;
    let received = Answer::received(0, 0);
    assert_eq!(call.answered(&[], received), Err(Refusal::RingMemory));
    assert_eq!(call.waits_for(), Some(Wait::Receive { max_new_fds: 0 }));
    call.answered(&[], Answer::failed(4))?;
    call.answered(RING, received)?;
    assert_eq!(
        (call.waits_for(), call.copied()),
        (Some(Wait::Send { batch: 1 }), 1)
    );
    call.answered(&[], Answer::sent(1))?;
    assert_eq!(call.end(), Ok(Outcome::Read { n: 1, fds: 0 }));
    assert_eq!(&bytes, b"s");
    Ok(())
}

#[test]
fn the_rest_of_a_chunk_is_copied_before_the_first_send() -> Result {
    let mut receiver = Receiver::new(Scheduler::from_counters(10, 3, 0)?);
    let mut bytes = [0; 5];
    let mut call = receiver.begin_read(b"abc_______", &mut bytes, 0)?;
    assert_eq!(call.waits_for(), Some(Wait::Send { batch: 1 }));
    assert_eq!(call.copied(), 3);
    call.answered(&[], Answer::sent(1))?;
    assert_eq!(call.end(), Ok(Outcome::Read { n: 3, fds: 0 }));
    assert_eq!(&bytes, b"abc\0\0");
    Ok(())
}

#[test]
fn a_stream_ends_without_a_ring() -> Result {
    let mut receiver = with_pending(0);
    let mut bytes = [0];
    let mut call = receiver.begin_read(RING, &mut bytes, 0)?;
    call.answered(&[], Answer::failed(11))?;
    assert_eq!(call.end(), Ok(Outcome::Failed(Failure::WOULDBLOCK)));
    let mut call = receiver.begin_read(RING, &mut bytes, 0)?;
    call.answered(&[], Answer::closed())?;
    assert_eq!(call.waits_for(), Some(Wait::Shutdown));
    call.answered(&[], Answer::done())?;
    assert_eq!(call.end(), Ok(Outcome::Failed(Failure::END_OF_STREAM)));
    Ok(())
}

#[test]
fn a_finished_call_stays() -> Result {
    let mut receiver = with_pending(0);
    let mut call = receiver.begin_read(RING, &mut [], 0)?;
    call.answered(&[], Answer::received(0, 0))?;
    assert_eq!(call.end(), Ok(Outcome::Read { n: 0, fds: 0 }));
    assert_eq!(receiver, with_pending(0));
    Ok(())
}

// ---- acknowledgements, over a socket

/// Sends what the call waits to send.
fn acknowledge(call: &Call, mut socket: &UnixStream) -> std::io::Result<Answer> {
    let Some(Wait::Send { batch }) = call.waits_for() else {
        panic!("it waits for {:?}", call.waits_for());
    };
    let n = socket.write(&[0; MAX_BATCH][..batch])?;
    Ok(Answer::sent(n as u64))
}

/// How many acknowledgements have come.
fn came(mut socket: &UnixStream) -> std::io::Result<usize> {
    let mut all = vec![];
    socket.set_nonblocking(true)?;
    match socket.read_to_end(&mut all) {
        Err(e) if e.kind() == ErrorKind::WouldBlock => Ok(all.len()),
        closed => closed,
    }
}

/// Hands in a misfit before each answer, and goes on.
fn service_amid_misfits(receiver: &mut Receiver, socket: &UnixStream) -> Result {
    let mut call = receiver.begin_service()?;
    for place in 1.. {
        let Some(Wait::Send { batch }) = call.waits_for() else {
            break;
        };
        let answer = acknowledge(&call, socket)?;
        for misfit in [Answer::sent(batch as u64 + 1), Answer::done()] {
            assert_eq!(call.answered(&[], misfit), Err(Refusal::Misfit { place }));
        }
        call.answered(&[], answer)?;
    }
    assert_eq!(call.end(), Ok(Outcome::Done));
    Ok(())
}

#[test]
fn misfits_amid_a_service_acknowledge_nothing_twice() -> Result {
    let (socket, other) = UnixStream::pair()?;
    let mut receiver = with_pending(300);
    service_amid_misfits(&mut receiver, &socket)?;
    assert_eq!(
        (receiver.pending_acknowledgements(), came(&other)?),
        (0, 300)
    );
    Ok(())
}

#[test]
fn a_service_dropped_after_its_first_send_leaves_the_rest_to_the_next() -> Result {
    let (socket, other) = UnixStream::pair()?;
    let mut receiver = with_pending(300);
    let mut call = receiver.begin_service()?;
    let answer = acknowledge(&call, &socket)?;
    call.answered(&[], answer)?;
    assert_eq!(
        call.answered(&[], Answer::done()),
        Err(Refusal::Misfit { place: 2 })
    );
    drop(call);
    assert_eq!(receiver.pending_acknowledgements(), 172);
    service_amid_misfits(&mut receiver, &socket)?;
    assert_eq!(
        (receiver.pending_acknowledgements(), came(&other)?),
        (0, 300)
    );
    Ok(())
}

#[test]
fn a_read_dropped_after_its_first_send_keeps_its_bytes() -> Result {
    let (socket, other) = UnixStream::pair()?;
    let mut receiver = with_pending(299);
    let mut bytes = [0];
    let mut call = receiver.begin_read(RING, &mut bytes, 0)?;
    call.answered(RING, Answer::received(0, 0))?;
    let answer = acknowledge(&call, &socket)?;
    call.answered(&[], answer)?;
    assert_eq!(call.copied(), 1);
    drop(call);
    assert_eq!(&bytes, b"s");
    assert_eq!(
        (receiver.pending_acknowledgements(), receiver.data()),
        (172, 0)
    );
    service_amid_misfits(&mut receiver, &socket)?;
    assert_eq!(came(&other)?, 300);
    Ok(())
}

#[test]
fn a_dropped_shutdown_is_begun_anew() -> Result {
    let mut receiver = with_pending(0);
    drop(receiver.begin_shutdown()?);
    assert_eq!(receiver.state(), State::Draining(Failure::END_OF_STREAM));
    let mut call = receiver.begin_shutdown()?;
    assert_eq!(
        call.answered(&[], Answer::sent(1)),
        Err(Refusal::Misfit { place: 1 })
    );
    assert_eq!(call.waits_for(), Some(Wait::Shutdown));
    call.answered(&[], Answer::done())?;
    assert_eq!(call.end(), Ok(Outcome::Done));
    Ok(())
}

// ---- calls that a host makes up, of plain records

/// A chunk with a body of 2 bytes.
const TEN: &[u8; 10] = b"\0\0\0\0\0\0\0\x02ab";

const RECEIVE: u64 = 0;
const SEND: u64 = 1;
const FINISHED: u64 = 3;

/// Nothing is read, so all that is written is the fill.
fn record(items_written: u64, state: u64, errno: u64, pending_ack_count: u64) -> abi::Receiver {
    let failure = abi::Failure {
        value: errno,
        ..Default::default()
    };
    abi::Receiver {
        scheduler: abi::Scheduler {
            buf_len: 10,
            items_written,
            items_read: 0,
            fill: items_written,
        },
        state: abi::State {
            kind: state,
            failure,
        },
        pending_ack_count,
        notification_socket_shutdown_issued: 0,
    }
}

fn made_up(kind: u64, receiver: abi::Receiver) -> abi::Call {
    let outcome = abi::Outcome {
        n: 3,
        ..Default::default()
    };
    let ending = abi::Ending { told: 0, outcome };
    let phase = abi::Phase {
        kind,
        max_new_fds: 1,
        dst_len: 4,
        batch: 1000,
        ending,
        outcome,
    };
    abi::Call {
        receiver,
        source: receiver.scheduler,
        phase,
    }
}

fn refused(number: u64, a: u64, b: u64, c: u64) -> abi::StepAnswer {
    let refusal = abi::Refusal { number, a, b, c };
    abi::StepAnswer {
        refusal,
        call: abi::Call::default(),
    }
}

/// The receiver of a finished call, and what it came to.
fn finished(step: abi::StepAnswer) -> (abi::Receiver, Outcome) {
    assert_eq!((step.refusal.number, step.call.phase.kind), (0, FINISHED));
    (step.call.receiver, step.call.phase.outcome.into())
}

#[test]
fn the_call_of_a_misfit_goes_on_from_what_was_sent() {
    let begun = abi::stripring_call_begin_read(record(3, 0, 0, 300), 10, 0, 5);
    let sent = |call, n, place| abi::call_answered(call, TEN, Answer::sent(n), place);
    let waits = sent(begun.call, 128, 1).call;
    assert_eq!(
        (waits.phase.kind, waits.receiver.pending_ack_count),
        (SEND, 173)
    );
    assert_eq!(sent(waits, 129, 2), refused(12, 2, 0, 0));
    assert_eq!(
        abi::call_answered(waits, TEN, Answer::done(), 2),
        refused(12, 2, 0, 0)
    );
    let waits = sent(waits, 128, 2).call;
    assert_eq!(
        (waits.phase.batch, waits.receiver.pending_ack_count),
        (45, 45)
    );
    let (receiver, outcome) = finished(sent(waits, 45, 3));
    assert_eq!(
        (receiver.pending_ack_count, outcome),
        (0, Outcome::Read { n: 3, fds: 0 })
    );
}

#[test]
fn every_phase_tests_its_record() {
    for kind in RECEIVE..=FINISHED + 1 {
        for answer in [
            Answer::received(0, 0),
            Answer::sent(1),
            Answer::done(),
            Answer::failed(11),
        ] {
            let answered = |written| {
                let call = made_up(kind, record(written, 1, 5000, 3));
                abi::call_answered(call, TEN, answer, 1)
            };
            assert_eq!(answered(11), refused(5, 10, 11, 0));
            assert_eq!(answered(3), refused(12, 0, 0, 0));
        }
    }
}

#[test]
fn a_made_up_phase_goes_by_the_rules_of_its_record() {
    let terminated = record(0, 2, 9, 0);
    let call = made_up(RECEIVE, terminated);
    let step = abi::call_answered(call, TEN, Answer::received(0, 0), 1);
    assert_eq!(
        finished(step),
        (terminated, Outcome::Failed(Failure::Errno(9)))
    );

    let draining = record(3, 1, 5, 3);
    let step = abi::call_answered(made_up(SEND, draining), &[], Answer::sent(1), 1);
    assert_eq!(finished(step), (draining, Outcome::Read { n: 3, fds: 0 }));

    let step = abi::call_answered(made_up(SEND, record(3, 0, 0, 5)), &[], Answer::sent(6), 1);
    assert_eq!(step, refused(12, 1, 0, 0));

    let full = made_up(RECEIVE, record(0, 0, 0, u64::MAX));
    let step = abi::call_answered(full, TEN, Answer::received(0, 0), 1);
    assert_eq!(step, refused(13, 0, 0, 0));
}
