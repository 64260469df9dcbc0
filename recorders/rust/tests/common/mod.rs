//! Recordings into memory, one at a time.
#![allow(dead_code)]

use arc_trace::{Fault, Recording};
use std::io::{self, Write};
use std::sync::{Arc, Mutex, MutexGuard};

static ONE_AT_A_TIME: Mutex<()> = Mutex::new(());

/// A sink whose bytes can be read afterwards.
#[derive(Clone, Default)]
pub struct Memory(Arc<Mutex<Vec<u8>>>);

impl Memory {
    pub fn text(&self) -> String {
        String::from_utf8(self.0.lock().unwrap().clone()).unwrap()
    }
}

impl Write for Memory {
    fn write(&mut self, bytes: &[u8]) -> io::Result<usize> {
        self.0.lock().unwrap().write(bytes)
    }

    fn flush(&mut self) -> io::Result<()> {
        Ok(())
    }
}

/// What a program writes that records all that it does, and how its recording ends.
pub fn recording_of(program: impl FnOnce()) -> (String, Result<u32, Fault>) {
    let _one = one_at_a_time();
    let memory = Memory::default();
    let recording = Recording::to(memory.clone()).unwrap();
    program();
    let end = recording.finish();
    (memory.text(), end)
}

/// What a program writes whose recording doesn't stop.
pub fn recorded(program: impl FnOnce()) -> String {
    let (trace, end) = recording_of(program);
    assert_eq!(end.unwrap() as usize, trace.lines().count());
    trace
}

/// Only one recording can be open at a time, and tests run at once.
pub fn one_at_a_time() -> MutexGuard<'static, ()> {
    ONE_AT_A_TIME
        .lock()
        .unwrap_or_else(|poisoned| poisoned.into_inner())
}

/// The lines as `<id> <op>` and the members of the operation, without label and place.
pub fn ops(trace: &str) -> Vec<String> {
    trace.lines().map(op).collect()
}

fn op(line: &str) -> String {
    let rest = line.strip_prefix("{\"id\":").unwrap();
    let (id, rest) = rest.split_once(",\"t\":").unwrap();
    let (_, rest) = rest.split_once(",\"op\":\"").unwrap();
    let (op, rest) = rest.split_once('"').unwrap();
    let end = rest
        .find(",\"at\":")
        .or_else(|| rest.find(",\"made_at\":"))
        .unwrap();
    format!("{id} {op}{}", &rest[..end])
}
