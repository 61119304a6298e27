//! Two processes and a ring in memory that they share: the camera writes the strips of pictures, the classifier reads them,
//! and what it read is compared with what was written. Exit 1 if anything differs.
//!
//!     strips ends|receiver RING_LEN PICTURES            by the plain ends, or by announced chunks
//!     strips ends|receiver RING_LEN PICTURES killed     the classifier is killed in the middle
//!     strips receiver RING_LEN PICTURES too-long        the camera announces a chunk in the middle that is too long for the
//!                                                       ring, and the classifier says so and ends with 1

mod chunks;
mod ends;
mod picture;
mod sys;

use picture::Picture;
use std::os::unix::net::UnixStream;
use std::os::unix::process::ExitStatusExt;
use std::process::{self, ExitCode, ExitStatus};
use std::sync::atomic::Ordering;
use std::time::{Duration, Instant};
use sys::{Child, Shared};

type Result<T> = std::result::Result<T, Box<dyn std::error::Error>>;

const STRIPS: usize = 64;
/// The largest part of a strip that the classifier reads at once.
const READ_AT_MOST: usize = 16384;

pub struct Camera<'a> {
    picture: &'a Picture,
    ring: Shared,
    ring_len: u64,
    socket: UnixStream,
    classifier: &'a Child,
    /// The classifier is killed once so many bytes are written.
    kill_at: Option<usize>,
    /// In the middle a chunk is announced that is longer than the ring takes.
    too_long: bool,
    written: usize,
}

impl Camera<'_> {
    /// Counts what was written, and kills the classifier when it is time to.
    fn filmed(&mut self, n: usize) -> Result<()> {
        self.written += n;
        if self.kill_at.is_some_and(|at| self.written >= at) {
            self.kill_at = None;
            self.classifier.kill()?;
        }
        Ok(())
    }
}

/// What the classifier has read. The camera's process looks here when the classifier is gone.
pub struct Copy {
    bytes: Shared,
    len: Shared,
}

impl Copy {
    /// One byte more than the picture needs, so that a byte too many shows.
    fn new(picture: &Picture) -> Result<Self> {
        Ok(Self {
            bytes: Shared::new(c"copy", picture.bytes.len() + 1)?,
            len: Shared::new(c"copied", size_of::<usize>())?,
        })
    }

    fn len(&self) -> usize {
        self.len.number().load(Ordering::Acquire)
    }

    /// Where the next bytes go.
    fn next(&mut self) -> &mut [u8] {
        let len = self.len();
        let rest = &mut self.bytes.lend_mut()[len..];
        let most = rest.len().min(READ_AT_MOST);
        &mut rest[..most]
    }

    fn took(&mut self, n: usize) {
        self.len.number().fetch_add(n, Ordering::Release);
    }

    fn begins(&self, picture: &Picture) -> bool {
        picture.bytes.starts_with(&self.bytes.lend()[..self.len()])
    }
}

pub struct Classifier {
    ring: Shared,
    ring_len: u64,
    socket: UnixStream,
    copy: Copy,
}

/// What goes wrong in the middle of the pictures.
#[derive(Clone, Copy, PartialEq)]
enum Mishap {
    Killed,
    TooLong,
}

impl Mishap {
    const ALL: [Self; 2] = [Self::Killed, Self::TooLong];

    /// The word that asks for it.
    fn word(self) -> &'static str {
        match self {
            Self::Killed => "killed",
            Self::TooLong => "too-long",
        }
    }

    fn of(word: &str) -> Option<Self> {
        Self::ALL.into_iter().find(|mishap| mishap.word() == word)
    }
}

struct Asked {
    by_chunks: bool,
    ring_len: usize,
    pictures: usize,
    mishap: Option<Mishap>,
}

/// Nothing for words that ask for nothing that can be run: a chunk needs a ring of 9 bytes, and the plain ends have no chunks.
fn asked() -> Option<Asked> {
    let words: Vec<String> = std::env::args().skip(1).collect();
    let asked = Asked {
        by_chunks: match words.first()?.as_str() {
            "ends" => false,
            "receiver" => true,
            _ => return None,
        },
        ring_len: words.get(1)?.parse().ok()?,
        pictures: words.get(2)?.parse().ok()?,
        mishap: match words.get(3) {
            None => None,
            Some(word) => Some(Mishap::of(word)?),
        },
    };
    let can_be = match asked.by_chunks {
        true => asked.ring_len > chunks::HEADER_LEN,
        false => asked.ring_len > 0 && asked.mishap != Some(Mishap::TooLong),
    };
    (asked.pictures > 0 && can_be).then_some(asked)
}

/// The classifier's process.
fn classify(asked: &Asked, classifier: &mut Classifier) -> ! {
    let done = match asked.by_chunks {
        true => chunks::classify(classifier),
        false => ends::classify(classifier),
    };
    if let Err(e) = &done {
        eprintln!("strips: the classifier: {e}");
    }
    process::exit(done.is_err().into());
}

/// How the classifier should have ended, and whether the first bytes it read are the first that were written. A chunk that is
/// too long fails the stream once everything before it is read.
fn as_it_should_be(
    asked: &Asked,
    picture: &Picture,
    written: usize,
    copy: &Copy,
    status: ExitStatus,
) -> bool {
    let all = picture.bytes.len();
    let ended = match asked.mishap {
        None => status.success() && copy.len() == all,
        Some(Mishap::Killed) => status.signal().is_some() && copy.len() < all,
        Some(Mishap::TooLong) => status.code() == Some(1) && copy.len() == written,
    };
    ended && copy.begins(picture)
}

fn report(asked: &Asked, picture: &Picture, copy: &Copy, right: bool, took: Duration) {
    println!(
        "{}{}{}, ring of {} bytes: {} of {} bytes read, {}, {:.1} MB/s",
        if asked.by_chunks { "receiver" } else { "ends" },
        if asked.mishap.is_some() { " " } else { "" },
        asked.mishap.map_or("", Mishap::word),
        asked.ring_len,
        copy.len(),
        picture.bytes.len(),
        if right {
            "the first that were written"
        } else {
            "WRONG"
        },
        copy.len() as f64 / took.as_secs_f64() / 1e6,
    );
}

fn run(asked: &Asked) -> Result<bool> {
    let picture = Picture::new(asked.pictures * STRIPS);
    let (socket, other_socket) = UnixStream::pair()?;
    let ring = Shared::new(c"ring", asked.ring_len)?;
    let ring_len = asked.ring_len as u64;
    let copy = Copy::new(&picture)?;
    let start = Instant::now();
    let Some(child) = Child::fork()? else {
        drop(socket);
        let socket = other_socket;
        classify(
            asked,
            &mut Classifier {
                ring,
                ring_len,
                socket,
                copy,
            },
        );
    };
    drop(other_socket);
    let mut camera = Camera {
        picture: &picture,
        ring,
        ring_len,
        socket,
        classifier: &child,
        kill_at: (asked.mishap == Some(Mishap::Killed)).then_some(picture.bytes.len() / 2),
        too_long: asked.mishap == Some(Mishap::TooLong),
        written: 0,
    };
    match asked.by_chunks {
        true => chunks::film(&mut camera)?,
        false => ends::film(&mut camera)?,
    }
    let written = camera.written;
    drop(camera); // and its socket, which ends the stream
    let status = child.wait()?;
    let right = as_it_should_be(asked, &picture, written, &copy, status);
    report(asked, &picture, &copy, right, start.elapsed());
    Ok(right)
}

fn main() -> ExitCode {
    let Some(asked) = asked() else {
        eprintln!(
            "usage: strips ends|receiver RING_LEN PICTURES [killed], or strips receiver RING_LEN PICTURES too-long; \
             a chunk needs a ring of 9 bytes"
        );
        return ExitCode::from(2);
    };
    match run(&asked) {
        Ok(true) => ExitCode::SUCCESS,
        Ok(false) => ExitCode::FAILURE,
        Err(e) => {
            eprintln!("strips: {e}");
            ExitCode::FAILURE
        }
    }
}
