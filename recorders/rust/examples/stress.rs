//! Four threads that do any operations to nodes that they share, drawn from a seed: a replay must give each answer that they got.
//!
//! Usage: `stress TRACE [TURNS [SEED]]`

use arc_trace::{fields, Bare, Recording, Slot, Traced, TracedWeak};
use std::error::Error;
use std::sync::{Arc, Weak};
use std::{env, thread};

#[derive(Clone, Default)]
struct Node {
    next: [Slot<Arc<Node>>; 2],
    known: [Slot<Weak<Node>>; 2],
}
fields!(Node { next, known });

/// Numbers drawn from a seed (splitmix).
struct Draw(u64);

impl Draw {
    fn below(&mut self, n: usize) -> usize {
        self.0 = self.0.wrapping_add(0x9E37_79B9_7F4A_7C15);
        let mut z = self.0;
        z = (z ^ (z >> 30)).wrapping_mul(0xBF58_476D_1CE4_E5B9);
        z = (z ^ (z >> 27)).wrapping_mul(0x94D0_49BB_1331_11EB);
        ((z ^ (z >> 31)) % n as u64) as usize
    }
}

/// What one thread holds.
struct Worker {
    draw: Draw,
    shared: Traced<Node>,
    strong: Vec<Traced<Node>>,
    weak: Vec<TracedWeak<Node>>,
    bare: Vec<Bare<Node>>,
}

impl Worker {
    fn turn(&mut self) {
        match self.draw.below(18) {
            0..=2 => self.make(),
            3 => self.clone_or_downgrade(),
            4..=5 => self.upgrade(),
            6..=9 => self.set(),
            10..=11 => self.get_or_take(),
            12 => self.unwrap(),
            13 => self.change(),
            14 => self.look(),
            15 => self.bare(),
            _ => self.drop_some(),
        }
    }

    fn make(&mut self) {
        let weak = self.some_weak().map_or_else(Slot::empty, Slot::of);
        let next = self.some_strong().map_or_else(Slot::empty, Slot::of);
        let node = if self.draw.below(3) == 0 {
            Traced::new_cyclic(|me| Node {
                next: [next, Slot::empty()],
                known: [me.slot(), weak],
            })
        } else {
            Traced::new(Node {
                next: [Slot::empty(), next],
                known: [weak, Slot::empty()],
            })
        };
        self.strong.push(node);
    }

    fn clone_or_downgrade(&mut self) {
        let node = self.node();
        self.weak.push(node.downgrade());
        self.strong.push(node);
    }

    fn upgrade(&mut self) {
        if self.weak.is_empty() {
            return self.weak.push(TracedWeak::new());
        }
        let i = self.draw.below(self.weak.len());
        self.strong.extend(self.weak[i].upgrade());
    }

    fn set(&mut self) {
        let (node, i) = (self.node(), self.draw.below(2));
        if self.draw.below(2) == 0 {
            if let Some(from) = self.some_strong() {
                node.set(|n| &n.next[i], from);
            }
        } else if let Some(from) = self.some_weak() {
            node.set(|n| &n.known[i], from);
        }
    }

    fn get_or_take(&mut self) {
        let (node, i) = (self.node(), self.draw.below(2));
        match self.draw.below(4) {
            0 => self.strong.extend(node.take(|n| &n.next[i])),
            1 => self.weak.extend(node.take(|n| &n.known[i])),
            2 => self.strong.extend(node.get(|n| &n.next[i])),
            _ => self.weak.extend(node.get(|n| &n.known[i])),
        }
    }

    fn unwrap(&mut self) {
        let Some(node) = self.some_strong() else {
            return;
        };
        if self.draw.below(2) == 0 {
            self.bare.extend(node.into_inner());
        } else {
            match node.try_unwrap() {
                Ok(bare) => self.bare.push(bare),
                Err(node) => self.strong.push(node),
            }
        }
    }

    fn change(&mut self) {
        if let Some(mut node) = self.some_strong() {
            node.get_mut();
            node.make_mut();
            self.strong.push(node);
        }
    }

    fn look(&mut self) {
        let node = self.node();
        node.strong_count();
        node.weak_count();
        node.ptr_eq(&self.shared);
        if let Some(weak) = self.weak.last() {
            weak.strong_count();
        }
    }

    fn bare(&mut self) {
        let Some(bare) = self.bare.pop() else { return };
        self.strong.extend(bare.get(|n| &n.next[0]));
        self.weak.extend(bare.take(|n| &n.known[1]));
        if let Some(from) = self.some_weak() {
            bare.set(|n| &n.known[0], from);
        }
        if self.draw.below(3) > 0 {
            self.strong.push(bare.into_traced());
        }
    }

    fn drop_some(&mut self) {
        self.some_strong();
        self.some_weak();
    }

    // A node of this thread, or one that all threads reach.
    fn node(&mut self) -> Traced<Node> {
        if self.draw.below(3) > 0 && !self.strong.is_empty() {
            let i = self.draw.below(self.strong.len());
            return self.strong[i].clone();
        }
        let i = self.draw.below(2);
        self.shared
            .get(|n| &n.next[i])
            .unwrap_or_else(|| self.shared.clone())
    }

    fn some_strong(&mut self) -> Option<Traced<Node>> {
        let len = self.strong.len();
        (len > 0).then(|| self.strong.swap_remove(self.draw.below(len)))
    }

    fn some_weak(&mut self) -> Option<TracedWeak<Node>> {
        let len = self.weak.len();
        (len > 0).then(|| self.weak.swap_remove(self.draw.below(len)))
    }
}

fn main() -> Result<(), Box<dyn Error>> {
    let mut words = env::args().skip(1);
    let recording = Recording::to_file(words.next().ok_or("usage: stress TRACE [TURNS [SEED]]")?)?;
    let turns: usize = words.next().map_or(Ok(100), |word| word.parse())?;
    let seed: u64 = words.next().map_or(Ok(1), |word| word.parse())?;

    let shared = Traced::new(Node::default());
    thread::scope(|s| {
        for number in 0..4 {
            let shared = shared.clone();
            s.spawn(move || {
                let mut worker = Worker {
                    draw: Draw(seed * 4 + number),
                    shared,
                    strong: vec![],
                    weak: vec![],
                    bare: vec![],
                };
                for _ in 0..turns {
                    worker.turn();
                }
            });
        }
    });
    drop(shared);
    println!("{} operations", recording.finish()?);
    Ok(())
}
