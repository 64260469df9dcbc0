//! Where the lines go, how far, and what ends it.

use crate::fault::Fault;
use crate::line::Line;
use crate::order::{in_order, locked};
use std::cell::Cell;
use std::fs::File;
use std::io::{self, Write};
use std::path::Path;
use std::sync::Mutex;

// The limits of the reader of a trace.
const MAX_OPERATIONS: u32 = 1_000_000;
const MAX_BYTES: u64 = 1_000_000_000;
const MAX_LINE: usize = 4_096;
const MAX_LABELS: u32 = 65_536;
pub(crate) const MAX_FIELDS: usize = 64;

// Lines are kept until they are this many bytes, and then written as whole lines: a program that is killed leaves a trace.
const BUFFER: usize = 65_536;

static RECORDER: Mutex<Recorder> = Mutex::new(Recorder {
    active: None,
    recordings: 0,
});

thread_local! {
    // the label of this thread, and the recording in which it has it
    static LABEL: Cell<(u32, u32)> = const { Cell::new((0, 0)) };
}

/// A recording that is open. It ends with [`finish`](Recording::finish), or where it is dropped.
///
/// One can be open at a time. Declare it before all handles, so that it is dropped after them: what is done later isn't recorded.
/// `std::process::exit` drops nothing, so end the recording before it.
#[derive(Debug)]
#[must_use = "recording ends where this is dropped"]
pub struct Recording {
    is_open: bool,
}

impl Recording {
    /// Records into a file that is made, or emptied.
    pub fn to_file(path: impl AsRef<Path>) -> io::Result<Self> {
        Self::to(File::create(path)?)
    }

    /// Records into any sink, which must not do recorded operations itself. It is written to in pieces of whole lines.
    pub fn to(sink: impl Write + Send + 'static) -> io::Result<Self> {
        in_order(|| {
            let mut recorder = locked(&RECORDER);
            if recorder.active.is_some() {
                return Err(io::Error::new(
                    io::ErrorKind::AlreadyExists,
                    "another recording is open",
                ));
            }
            recorder.recordings += 1;
            recorder.active = Some(Active::new(recorder.recordings, Box::new(sink)));
            Ok(Recording { is_open: true })
        })
    }

    /// Writes what is left, and gives the number of operations of the trace, or why it doesn't have all of them.
    pub fn finish(mut self) -> Result<u32, Fault> {
        let Some(mut active) = self.end() else {
            return Ok(0);
        };
        if let Some(fault) = active.fault.take() {
            return Err(fault);
        }
        active.flush().map_err(Fault::Write)?;
        Ok(active.operations)
    }

    // What is recorded, the first time.
    fn end(&mut self) -> Option<Active> {
        if !self.is_open {
            return None;
        }
        self.is_open = false;
        in_order(|| locked(&RECORDER).active.take())
    }
}

impl Drop for Recording {
    fn drop(&mut self) {
        let Some(mut active) = self.end() else {
            return;
        };
        if active.fault.is_some() {
            return; // it was told when it came
        }
        if let Err(cause) = active.flush() {
            tell(&Fault::Write(cause));
        }
    }
}

/// What a handle goes by: its number, in the recording in which it was made.
#[derive(Clone, Copy, PartialEq, Eq)]
pub(crate) struct Name {
    recording: u32,
    pub(crate) number: u32,
}

impl Name {
    /// The name of a handle that was made while nothing was recorded.
    pub(crate) const NONE: Name = Name {
        recording: 0,
        number: 0,
    };

    pub(crate) fn is_of(self, recording: u32) -> bool {
        self.recording == recording && recording != 0
    }
}

struct Recorder {
    active: Option<Active>,
    recordings: u32,
}

struct Active {
    recording: u32,
    sink: Box<dyn Write + Send>,
    buffer: Vec<u8>,
    operations: u32,
    bytes: u64,
    labels: u32,
    handles: u32,
    free: Vec<u32>,
    fault: Option<Fault>,
}

/// The recording that goes on, or 0.
pub(crate) fn current() -> u32 {
    match &locked(&RECORDER).active {
        Some(active) if active.fault.is_none() => active.recording,
        _ => 0,
    }
}

/// Writes a line, where a recording goes on that knows its handles. Names the handle that the operation makes.
pub(crate) fn write(line: &Line, makes: Option<&str>) -> Name {
    match &mut locked(&RECORDER).active {
        Some(active) if active.fault.is_none() => active.write(line, makes),
        _ => Name::NONE,
    }
}

/// Takes note that a handle ended: its number is free for another one.
pub(crate) fn ended(name: Name) {
    if let Some(active) = &mut locked(&RECORDER).active {
        if name.is_of(active.recording) {
            active.free.push(name.number);
        }
    }
}

/// Ends a recording whose trace can't go on, and says so.
pub(crate) fn stop(fault: Fault) {
    if let Some(active) = &mut locked(&RECORDER).active {
        active.stop(fault);
    }
}

impl Active {
    fn new(recording: u32, sink: Box<dyn Write + Send>) -> Self {
        Active {
            recording,
            sink,
            buffer: Vec::new(),
            operations: 0,
            bytes: 0,
            labels: 0,
            handles: 0,
            free: Vec::new(),
            fault: None,
        }
    }

    fn write(&mut self, line: &Line, makes: Option<&str>) -> Name {
        if line.is_mixed() {
            self.stop(Fault::EarlierHandle);
        }
        if line.is_foreign() {
            return Name::NONE;
        }
        let Some(label) = self.label() else {
            self.stop(Fault::Threads);
            return Name::NONE;
        };
        let number = self.free.last().copied().unwrap_or(self.handles);
        let made = makes.map(|member| (member, number));
        let id = self.operations + 1;
        let mut text = line.text(id, label, made, true);
        if text.len() > MAX_LINE + 1 {
            text = line.text(id, label, made, false);
        }
        let bytes = self.bytes + text.len() as u64;
        if id > MAX_OPERATIONS || bytes > MAX_BYTES {
            self.stop(Fault::Full);
            return Name::NONE;
        }
        self.operations = id;
        self.bytes = bytes;
        self.buffer.extend_from_slice(text.as_bytes());
        if makes.is_none() {
            self.flush_full();
            return Name::NONE;
        }
        if self.free.pop().is_none() {
            self.handles += 1;
        }
        self.flush_full();
        Name {
            recording: self.recording,
            number,
        }
    }

    // The label of this thread, which is made with its first operation.
    fn label(&mut self) -> Option<u32> {
        let (recording, label) = LABEL.get();
        if recording == self.recording {
            return Some(label);
        }
        if self.labels == MAX_LABELS {
            return None;
        }
        let label = self.labels;
        self.labels += 1;
        LABEL.set((self.recording, label));
        Some(label)
    }

    fn flush_full(&mut self) {
        if self.buffer.len() >= BUFFER {
            if let Err(cause) = self.flush() {
                self.stop(Fault::Write(cause));
            }
        }
    }

    fn flush(&mut self) -> io::Result<()> {
        let written = self.sink.write_all(&self.buffer);
        self.buffer.clear();
        written.and_then(|()| self.sink.flush())
    }

    fn stop(&mut self, fault: Fault) {
        if self.fault.is_some() {
            return;
        }
        tell(&fault);
        self.fault = Some(match self.flush() {
            Err(cause) if !matches!(fault, Fault::Write(_)) => {
                let cause = Fault::Write(cause);
                tell(&cause);
                cause
            }
            _ => fault,
        });
    }
}

// Where standard error is closed too, nobody is left to be told: no panic, since this may be in a destructor.
fn tell(fault: &Fault) {
    let _ = writeln!(
        io::stderr(),
        "arc_trace: recording stopped: {fault}; the program goes on"
    );
}
