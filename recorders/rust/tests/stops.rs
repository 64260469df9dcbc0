//! What ends a recording, and that the program goes on.

mod common;

use arc_trace::{fields, Fault, Recording, Slot, Traced};
use common::{one_at_a_time, ops, recorded, recording_of, Memory};
use std::io::{self, Write};
use std::sync::{Arc, Weak};
use std::thread;

struct Leaf;
fields!(Leaf {});

#[derive(Clone)]
struct Node {
    next: Slot<Arc<Node>>,
    me: Slot<Weak<Node>>,
}
fields!(Node { next, me });

fn node() -> Node {
    Node {
        next: Slot::empty(),
        me: Slot::empty(),
    }
}

// Records a program that makes a mistake between two allocations: the second isn't in the trace.
fn stopped_by(mistake: impl FnOnce()) -> (String, Fault) {
    let (trace, end) = recording_of(|| {
        let _before = Traced::new(Leaf);
        mistake();
        let after = Traced::new(Leaf);
        assert_eq!(after.strong_count(), 1);
    });
    assert_eq!(trace.matches("\"new\",\"fields\":[],").count(), 1);
    (trace, end.unwrap_err())
}

#[test]
fn a_full_trace() {
    let (trace, end) = recording_of(|| {
        let leaf = Traced::new(Leaf);
        for _ in 0..500_000 {
            drop(leaf.clone());
        }
    });
    assert!(matches!(end, Err(Fault::Full)));
    assert_eq!(trace.lines().count(), 1_000_000);
    assert!(trace.ends_with("\n"));
}

#[test]
fn a_value_with_too_many_slots() {
    struct Wide {
        slots: Vec<Slot<Arc<Leaf>>>,
    }
    fields!(Wide { slots });
    let wide = |width: usize| Wide {
        slots: (0..width).map(|_| Slot::empty()).collect(),
    };
    recorded(|| drop(Traced::new(wide(64))));
    let (_, fault) = stopped_by(|| {
        let wide = Traced::new(wide(65));
        wide.set(|w| &w.slots[64], Traced::new(Leaf));
        assert!(wide.get(|w| &w.slots[64]).is_some());
    });
    assert!(matches!(fault, Fault::Fields));
}

#[test]
fn a_slot_that_fields_dont_show() {
    struct Forgetful {
        shown: Slot<Arc<Leaf>>,
        hidden: Slot<Arc<Node>>,
    }
    fields!(Forgetful { shown });
    let (_, fault) = stopped_by(|| {
        let value = Traced::new(Forgetful {
            shown: Slot::empty(),
            hidden: Slot::of(Traced::new(node())),
        });
        assert!(value.take(|v| &v.shown).is_none());
        let held = value.get(|v| &v.hidden).unwrap();
        value.set(|v| &v.hidden, held.clone());
        assert_eq!(held.strong_count(), 2);
    });
    assert!(matches!(fault, Fault::HiddenSlot));
}

#[test]
fn a_value_that_is_cloned() {
    let (_, fault) = stopped_by(|| {
        let first = Traced::new(node());
        first.set(|n| &n.next, Traced::new(node()));
        let copy: Node = (*first).clone();
        drop(first);
        let second = Traced::new(copy);
        assert!(second.get(|n| &n.next).is_some());
    });
    assert!(matches!(fault, Fault::CopiedSlot));
}

#[test]
fn a_slot_that_is_replaced() {
    let (_, fault) = stopped_by(|| {
        let mut first = Traced::new(node());
        first.set(|n| &n.next, Traced::new(node()));
        *first.get_mut().unwrap() = node();
        assert!(first.get(|n| &n.next).is_none());
    });
    assert!(matches!(fault, Fault::LostSlot));
}

#[test]
fn a_slot_that_is_moved() {
    let (_, fault) = stopped_by(|| {
        let mut first = Traced::new(node());
        first.set(|n| &n.next, Traced::new(node()));
        let taken = std::mem::replace(&mut first.get_mut().unwrap().next, Slot::empty());
        Traced::new(Node {
            next: taken,
            me: Slot::empty(),
        });
    });
    assert!(matches!(fault, Fault::LostSlot));
}

#[test]
fn a_weak_to_itself_in_another_value() {
    let (_, fault) = stopped_by(|| {
        let outer = Traced::new_cyclic(|me| Node {
            next: Slot::of(Traced::new(Node {
                next: Slot::empty(),
                me: me.slot(),
            })),
            me: Slot::empty(),
        });
        let inner = outer.get(|n| &n.next).unwrap();
        let again = inner.get(|n| &n.me).unwrap().upgrade().unwrap();
        assert!(again.ptr_eq(&outer));
    });
    assert!(matches!(fault, Fault::ForeignMe));
}

#[test]
fn handles_from_before() {
    let _one = one_at_a_time();
    let early = Traced::new(node());
    let memory = Memory::default();
    let recording = Recording::to(memory.clone()).unwrap();
    drop(early.clone().downgrade().upgrade()); // of earlier handles alone: not in the trace
    let late = Traced::new(node());
    drop(late.clone());
    late.set(|n| &n.next, early.clone());
    drop(late);
    assert!(matches!(recording.finish(), Err(Fault::EarlierHandle)));
    assert_eq!(
        ops(&memory.text()),
        [
            r#"1 new,"fields":[null,null],"to":0"#,
            r#"2 clone,"from":0,"to":1"#,
            r#"3 drop,"h":1"#,
        ]
    );
    assert_eq!(early.strong_count(), 1);
}

#[test]
#[ignore = "starts 65,536 threads"]
fn more_threads_than_labels() {
    let (trace, end) = recording_of(|| {
        let leaf = Traced::new(Leaf);
        for _ in 0..65_536 {
            thread::scope(|s| {
                s.spawn(|| drop(leaf.clone()));
            });
        }
    });
    assert!(matches!(end, Err(Fault::Threads)));
    assert!(trace.contains("\"t\":65535,") && !trace.contains("\"t\":65536,"));
}

#[test]
fn a_sink_that_fails() {
    struct Broken;
    impl Write for Broken {
        fn write(&mut self, _: &[u8]) -> io::Result<usize> {
            Err(io::Error::other("no room"))
        }
        fn flush(&mut self) -> io::Result<()> {
            Ok(())
        }
    }
    let _one = one_at_a_time();
    let recording = Recording::to(Broken).unwrap();
    let leaf = Traced::new(Leaf);
    for _ in 0..10_000 {
        drop(leaf.clone());
    }
    let end = recording.finish();
    assert!(matches!(&end, Err(Fault::Write(cause)) if cause.to_string() == "no room"));
    drop(Recording::to(Broken).unwrap()); // nothing was written, so nothing failed
    let dropped = Recording::to(Broken).unwrap();
    let late = Traced::new(Leaf);
    drop(dropped); // it is told, and is no panic
    drop(late);
}

#[test]
fn one_recording_at_a_time() {
    let _one = one_at_a_time();
    let first = Recording::to(io::sink()).unwrap();
    let second = Recording::to(io::sink());
    assert_eq!(second.unwrap_err().kind(), io::ErrorKind::AlreadyExists);
    assert_eq!(first.finish().unwrap(), 0);
}

#[test]
fn a_file_has_all_lines_when_the_recording_ends() {
    let _one = one_at_a_time();
    let path = std::env::temp_dir().join(format!("arc_trace-{}.jsonl", std::process::id()));
    let recording = Recording::to_file(&path).unwrap();
    drop(Traced::new(Leaf));
    drop(recording);
    let text = std::fs::read_to_string(&path).unwrap();
    std::fs::remove_file(&path).unwrap();
    assert_eq!(ops(&text).len(), 2);
}
