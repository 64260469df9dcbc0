//! The text of one line.

use crate::fault::Fault;
use crate::recording::{self, Name, MAX_FIELDS};
use std::fmt::{Display, Write};
use std::panic::Location;

/// What a field of a new value holds, as the line says it.
#[derive(Clone, Copy)]
pub(crate) enum FirstSlot {
    Nothing,
    Me,
    Handle(Name),
}

/// A line that is put together. It is written where the recording knows all of its handles.
pub(crate) struct Line {
    op: &'static str,
    members: String,
    place: (&'static str, &'static Location<'static>),
    recording: u32,
    is_known: bool,
    is_foreign: bool,
}

impl Line {
    /// An operation that the program calls at a place.
    pub(crate) fn of(op: &'static str, at: &'static Location<'static>) -> Self {
        Self::with_place(op, ("at", at))
    }

    /// The end of what was made at a place: where it ends isn't known, since `drop` has no caller.
    pub(crate) fn of_end(op: &'static str, made_at: &'static Location<'static>) -> Self {
        Self::with_place(op, ("made_at", made_at))
    }

    fn with_place(op: &'static str, place: (&'static str, &'static Location<'static>)) -> Self {
        Line {
            op,
            members: String::new(),
            place,
            recording: recording::current(),
            is_known: false,
            is_foreign: false,
        }
    }

    pub(crate) fn handle(mut self, member: &str, name: Name) -> Self {
        self.name(name);
        self.number(member, name.number as usize)
    }

    pub(crate) fn number(mut self, member: &str, number: usize) -> Self {
        push(&mut self.members, format_args!(",\"{member}\":{number}"));
        self
    }

    /// What the program was answered. The reader of a trace ignores it.
    pub(crate) fn answer(mut self, answer: impl Display) -> Self {
        push(&mut self.members, format_args!(",\"answer\":\"{answer}\""));
        self
    }

    pub(crate) fn fields(mut self, fields: &[FirstSlot]) -> Self {
        if fields.len() > MAX_FIELDS {
            recording::stop(Fault::Fields);
        }
        self.members.push_str(",\"fields\":[");
        for (i, field) in fields.iter().enumerate() {
            if i > 0 {
                self.members.push(',');
            }
            match field {
                FirstSlot::Nothing => self.members.push_str("null"),
                FirstSlot::Me => self.members.push_str("\"me\""),
                FirstSlot::Handle(name) => {
                    self.name(*name);
                    push(&mut self.members, format_args!("{}", name.number));
                }
            }
        }
        self.members.push(']');
        self
    }

    pub(crate) fn write(self) {
        recording::write(&self, None);
    }

    /// Writes the line of an operation that makes a handle, and names that handle.
    pub(crate) fn write_making(self, member: &str) -> Name {
        recording::write(&self, Some(member))
    }

    /// Whether some handle of the line wasn't made in this recording.
    pub(crate) fn is_foreign(&self) -> bool {
        self.is_foreign
    }

    /// Whether some handles of the line were made in this recording, and others weren't.
    pub(crate) fn is_mixed(&self) -> bool {
        self.is_known && self.is_foreign
    }

    /// The text of the line with its newline, without the place where there is to be none.
    pub(crate) fn text(
        &self,
        id: u32,
        label: u32,
        made: Option<(&str, u32)>,
        with_place: bool,
    ) -> String {
        let mut text = format!("{{\"id\":{id},\"t\":{label},\"op\":\"{}\"", self.op);
        text.push_str(&self.members);
        if let Some((member, number)) = made {
            push(&mut text, format_args!(",\"{member}\":{number}"));
        }
        if with_place {
            let (member, place) = self.place;
            push(&mut text, format_args!(",\"{member}\":\""));
            push_escaped(&mut text, place.file());
            push(&mut text, format_args!(":{}\"", place.line()));
        }
        text.push_str("}\n");
        text
    }

    fn name(&mut self, name: Name) {
        if name.is_of(self.recording) {
            self.is_known = true;
        } else {
            self.is_foreign = true;
        }
    }
}

// Writing into a `String` doesn't fail.
fn push(text: &mut String, what: std::fmt::Arguments<'_>) {
    let _ = text.write_fmt(what);
}

// The characters of a JSON text, so that any path gives a line that can be read.
fn push_escaped(text: &mut String, path: &str) {
    for character in path.chars() {
        match character {
            '"' => text.push_str("\\\""),
            '\\' => text.push_str("\\\\"),
            '\0'..='\x1f' => push(text, format_args!("\\u{:04x}", u32::from(character))),
            _ => text.push(character),
        }
    }
}

#[cfg(test)]
mod tests {
    use super::*;

    #[test]
    fn any_path_gives_json() {
        let mut text = String::new();
        push_escaped(&mut text, "C:\\src\\a \"b\"\n\u{1}\u{e9}.rs");
        assert_eq!(text, "C:\\\\src\\\\a \\\"b\\\"\\u000a\\u0001\u{e9}.rs");
    }
}
