//! The line of each operation, and what it does not to write.

mod common;

use arc_trace::{fields, Slot, Traced, TracedWeak};
use common::{ops, recorded};
use std::panic::{catch_unwind, AssertUnwindSafe};
use std::sync::{Arc, Weak};
use std::thread;

#[derive(Clone, Debug)]
struct Leaf;
fields!(Leaf {});

#[derive(Clone, Debug)]
struct Node {
    leaf: Slot<Arc<Leaf>>,
    others: [Slot<Weak<Node>>; 2],
}
fields!(Node { leaf, others });

impl Node {
    fn of(leaf: Slot<Arc<Leaf>>) -> Self {
        Node {
            leaf,
            others: Default::default(),
        }
    }
}

#[test]
fn handles() {
    let trace = recorded(|| {
        let leaf = Traced::new(Leaf);
        let weak = leaf.downgrade();
        let other = leaf.clone();
        assert!(leaf.ptr_eq(&other));
        assert_eq!(leaf.strong_count(), 2);
        assert_eq!(weak.weak_count(), 1);
        drop(weak.upgrade());
        drop(leaf);
        drop(other);
        assert!(weak.upgrade().is_none());
        assert_eq!(weak.strong_count(), 0);
        assert!(TracedWeak::<Leaf>::new().upgrade().is_none());
    });
    assert_eq!(
        ops(&trace),
        [
            r#"1 new,"fields":[],"to":0"#,
            r#"2 downgrade,"from":0,"to":1"#,
            r#"3 clone,"from":0,"to":2"#,
            r#"4 ptr_eq,"a":0,"b":2,"answer":"yes""#,
            r#"5 counts,"h":0,"answer":"2/1""#,
            r#"6 counts,"h":1,"answer":"2/1""#,
            r#"7 upgrade,"from":1,"answer":"yes","to":3"#,
            r#"8 drop,"h":3"#,
            r#"9 drop,"h":0"#,
            r#"10 drop,"h":2"#,
            r#"11 upgrade,"from":1,"answer":"no","to":2"#,
            r#"12 drop,"h":2"#,
            r#"13 counts,"h":1"#,
            r#"14 weak_new,"to":2"#,
            r#"15 upgrade,"from":2,"answer":"no","to":0"#,
            r#"16 drop,"h":0"#,
            r#"17 drop,"h":2"#,
            r#"18 drop,"h":1"#,
        ]
    );
}

#[test]
fn fields_of_a_value() {
    let trace = recorded(|| {
        let node = Traced::new(Node::of(Slot::of(Traced::new(Leaf))));
        node.set(|n| &n.others[1], node.downgrade());
        node.set(|n| &n.leaf, Traced::new(Leaf)); // drops the first one
        assert!(node.get(|n| &n.others[0]).is_none());
        let weak = node.get(|n| &n.others[1]).unwrap();
        assert!(node.take(|n| &n.leaf).is_some());
        assert!(node.take(|n| &n.leaf).is_none());
        drop(node);
        assert!(weak.upgrade().is_none());
    });
    assert_eq!(
        ops(&trace),
        [
            r#"1 new,"fields":[],"to":0"#,
            r#"2 new,"fields":[0,null,null],"to":1"#,
            r#"3 downgrade,"from":1,"to":0"#,
            r#"4 set,"h":1,"i":2,"from":0"#,
            r#"5 new,"fields":[],"to":0"#,
            r#"6 set,"h":1,"i":0,"from":0"#,
            r#"7 get,"h":1,"i":1,"to":0"#,
            r#"8 drop,"h":0"#,
            r#"9 get,"h":1,"i":2,"to":0"#,
            r#"10 take,"h":1,"i":0,"to":2"#,
            r#"11 drop,"h":2"#,
            r#"12 take,"h":1,"i":0,"to":2"#,
            r#"13 drop,"h":2"#,
            r#"14 drop,"h":1"#,
            r#"15 upgrade,"from":0,"answer":"no","to":1"#,
            r#"16 drop,"h":1"#,
            r#"17 drop,"h":0"#,
        ]
    );
}

#[test]
fn a_value_that_knows_itself() {
    let trace = recorded(|| {
        let node = Traced::new_cyclic(|me| Node {
            leaf: Slot::of(Traced::new(Leaf)),
            others: [me.slot(), Slot::empty()],
        });
        let me = node.get(|n| &n.others[0]).unwrap();
        assert!(me.upgrade().unwrap().ptr_eq(&node));
    });
    assert_eq!(
        ops(&trace),
        [
            r#"1 new,"fields":[],"to":0"#,
            r#"2 new_cyclic,"fields":[0,"me",null],"to":1"#,
            r#"3 get,"h":1,"i":1,"to":0"#,
            r#"4 upgrade,"from":0,"answer":"yes","to":2"#,
            r#"5 ptr_eq,"a":2,"b":1,"answer":"yes""#,
            r#"6 drop,"h":2"#,
            r#"7 drop,"h":0"#,
            r#"8 drop,"h":1"#,
        ]
    );
}

#[test]
fn values_that_leave_their_allocation() {
    let trace = recorded(|| {
        let node = Traced::new(Node::of(Slot::empty()));
        let other = node.clone();
        let node = node.try_unwrap().unwrap_err();
        assert!(other.into_inner().is_none());
        let bare = node.try_unwrap().unwrap();
        bare.set(|n| &n.leaf, Traced::new(Leaf));
        let again = bare.into_traced();
        let bare = again.into_inner().unwrap();
        assert!(bare.get(|n| &n.leaf).is_some());
    });
    assert_eq!(
        ops(&trace),
        [
            r#"1 new,"fields":[null,null,null],"to":0"#,
            r#"2 clone,"from":0,"to":1"#,
            r#"3 try_unwrap,"h":0,"answer":"no""#,
            r#"4 into_inner,"h":1,"answer":"no""#,
            r#"5 drop,"h":1"#,
            r#"6 try_unwrap,"h":0,"answer":"yes""#,
            r#"7 new,"fields":[],"to":1"#,
            r#"8 set,"h":0,"i":0,"from":1"#,
            r#"9 new_from,"from":0,"to":1"#,
            r#"10 into_inner,"h":1,"answer":"yes""#,
            r#"11 get,"h":1,"i":0,"to":0"#,
            r#"12 drop,"h":0"#,
            r#"13 drop,"h":1"#,
        ]
    );
}

#[test]
fn the_only_holder() {
    let trace = recorded(|| {
        let mut node = Traced::new(Node::of(Slot::of(Traced::new(Leaf))));
        assert!(node.get_mut().is_some());
        node.make_mut();
        let weak = node.downgrade();
        assert!(node.get_mut().is_none());
        node.make_mut(); // moves the value away from the Weak
        assert!(weak.upgrade().is_none());
        let other = node.clone();
        node.make_mut(); // clones it, and what its slots hold
        assert!(!node.ptr_eq(&other));
        assert_eq!(node.get(|n| &n.leaf).unwrap().strong_count(), 3);
    });
    assert_eq!(
        ops(&trace)[2..14],
        [
            r#"3 get_mut,"h":1,"answer":"yes""#,
            r#"4 make_mut,"h":1,"answer":"unique""#,
            r#"5 downgrade,"from":1,"to":0"#,
            r#"6 get_mut,"h":1,"answer":"no""#,
            r#"7 make_mut,"h":1,"answer":"moved""#,
            r#"8 upgrade,"from":0,"answer":"no","to":2"#,
            r#"9 drop,"h":2"#,
            r#"10 clone,"from":1,"to":2"#,
            r#"11 make_mut,"h":1,"answer":"cloned""#,
            r#"12 ptr_eq,"a":1,"b":2,"answer":"no""#,
            r#"13 get,"h":1,"i":0,"to":3"#,
            r#"14 counts,"h":3,"answer":"3/0""#,
        ]
    );
}

#[test]
fn handles_within_a_value_end_after_it() {
    struct Plain {
        _others: Vec<Traced<Leaf>>,
    }
    fields!(Plain {});
    let trace = recorded(|| {
        let leaf = Traced::new(Leaf);
        let plain = Traced::new(Plain {
            _others: vec![leaf.clone(), Traced::new(Leaf)],
        });
        drop(plain); // its value's two handles are dropped here, each by a line of its own
        drop(Node::of(Slot::of(leaf))); // never in an Arc: the handle is dropped
    });
    assert_eq!(
        ops(&trace)[3..],
        [
            r#"4 new,"fields":[],"to":3"#,
            r#"5 drop,"h":3"#,
            r#"6 drop,"h":1"#,
            r#"7 drop,"h":2"#,
            r#"8 drop,"h":0"#,
        ]
    );
}

#[test]
fn a_drop_that_panics_ends_its_operation() {
    struct Loud;
    fields!(Loud {});
    impl Drop for Loud {
        fn drop(&mut self) {
            panic!("loud");
        }
    }
    let trace = recorded(|| {
        let loud = Traced::new(Loud);
        assert!(catch_unwind(AssertUnwindSafe(|| drop(loud))).is_err());
        thread::scope(|s| {
            s.spawn(|| drop(Traced::new(Leaf))); // another thread isn't kept waiting
        });
    });
    assert_eq!(
        ops(&trace),
        [
            r#"1 new,"fields":[],"to":0"#,
            r#"2 drop,"h":0"#,
            r#"3 new,"fields":[],"to":0"#,
            r#"4 drop,"h":0"#,
        ]
    );
}

#[test]
fn each_line_tells_where() {
    let trace = recorded(|| {
        let leaf = Traced::new(Leaf);
        let _other = leaf.clone();
    });
    let line = line!() - 3;
    let file = file!();
    let wanted = [
        format!(r#"{{"id":1,"t":0,"op":"new","fields":[],"to":0,"at":"{file}:{line}"}}"#),
        format!(
            r#"{{"id":2,"t":0,"op":"clone","from":0,"to":1,"at":"{file}:{}"}}"#,
            line + 1
        ),
        format!(
            r#"{{"id":3,"t":0,"op":"drop","h":1,"made_at":"{file}:{}"}}"#,
            line + 1
        ),
        format!(r#"{{"id":4,"t":0,"op":"drop","h":0,"made_at":"{file}:{line}"}}"#),
    ];
    assert_eq!(trace.lines().collect::<Vec<_>>(), wanted);
}
