//! Threads that end values while others upgrade `Weak`s to them: the order of the lines gives the program's answers.

mod common;

use arc_trace::{fields, Slot, Traced};
use common::recorded;
use std::collections::HashMap;
use std::sync::{Arc, Weak};
use std::thread;

struct Session {
    config: Slot<Arc<Config>>,
}
fields!(Session { config });

struct Config;
fields!(Config {});

struct Cache {
    entries: [Slot<Weak<Session>>; 4],
}
fields!(Cache { entries });

#[test]
fn upgrades_are_answered_in_the_order_of_the_lines() {
    let trace = recorded(|| {
        let cache = Traced::new(Cache {
            entries: Default::default(),
        });
        thread::scope(|s| {
            for n in 0..4 {
                let cache = cache.clone();
                s.spawn(move || (0..500).for_each(|_| one_turn(n, &cache)));
            }
        });
    });
    let replayed = Replayed::of(&trace);
    assert_eq!(replayed.upgrades.len(), 2_000);
    for (line, recorded, answer) in replayed.upgrades {
        assert_eq!(recorded, answer, "at {line}");
    }
}

fn one_turn(n: usize, cache: &Traced<Cache>) {
    let session = Traced::new(Session {
        config: Slot::of(Traced::new(Config)),
    });
    cache.set(|c| &c.entries[n], session.downgrade());
    let weak = cache
        .get(|c| &c.entries[(n + 1) % 4])
        .unwrap_or_else(|| session.downgrade());
    drop(session);
    if let Some(other) = weak.upgrade() {
        other.get(|s| &s.config);
    }
}

// As much of a replay as the operations of this program need: what handles and fields name, and strong counts.
#[derive(Default)]
struct Replayed {
    handles: HashMap<String, Named>,
    fields: HashMap<(usize, String), Named>,
    strong: HashMap<usize, usize>,
    upgrades: Vec<(String, String, String)>,
}

#[derive(Clone, Copy)]
enum Named {
    Nothing,
    Strong(usize),
    Weak(usize),
}

impl Replayed {
    fn of(trace: &str) -> Self {
        let mut replayed = Replayed::default();
        for (i, line) in trace.lines().enumerate() {
            assert!(line.starts_with(&format!("{{\"id\":{},", i + 1)));
            replayed.step(i + 1, line);
        }
        assert!(replayed.handles.is_empty() && replayed.strong.values().all(|&n| n == 0));
        replayed
    }

    fn step(&mut self, id: usize, line: &str) {
        match text(line, "op").as_str() {
            "new" => {
                let fields = line.split(['[', ']']).nth(1).unwrap();
                for (i, field) in fields.split(',').enumerate() {
                    if let Some(slot) = self.handles.remove(field) {
                        self.fields.insert((id, i.to_string()), slot);
                    }
                }
                self.make(line, Named::Strong(id));
            }
            "clone" => self.make(line, self.handles[&number(line, "from")]),
            "downgrade" => match self.handles[&number(line, "from")] {
                Named::Strong(o) => self.make(line, Named::Weak(o)),
                _ => panic!("{line}"),
            },
            "upgrade" => {
                let found = match self.handles[&number(line, "from")] {
                    Named::Weak(o) if self.strong[&o] > 0 => Named::Strong(o),
                    Named::Weak(_) => Named::Nothing,
                    _ => panic!("{line}"),
                };
                let answer = match found {
                    Named::Nothing => "no",
                    _ => "yes",
                };
                let upgrade = (line.into(), text(line, "answer"), answer.into());
                self.upgrades.push(upgrade);
                self.make(line, found);
            }
            "set" => {
                let field = self.field(line);
                let slot = self.handles.remove(&number(line, "from")).unwrap();
                let old = self.fields.insert(field, slot);
                self.release(old.unwrap_or(Named::Nothing));
            }
            "get" => {
                let slot = self.fields.get(&self.field(line)).copied();
                self.make(line, slot.unwrap_or(Named::Nothing));
            }
            "drop" => {
                let slot = self.handles.remove(&number(line, "h")).unwrap();
                self.release(slot);
            }
            _ => panic!("{line}"),
        }
    }

    fn make(&mut self, line: &str, slot: Named) {
        if let Named::Strong(o) = slot {
            *self.strong.entry(o).or_default() += 1;
        }
        let old = self.handles.insert(number(line, "to"), slot);
        assert!(old.is_none(), "{line}");
    }

    fn field(&self, line: &str) -> (usize, String) {
        match self.handles[&number(line, "h")] {
            Named::Strong(o) => (o, number(line, "i")),
            _ => panic!("{line}"),
        }
    }

    fn release(&mut self, slot: Named) {
        let Named::Strong(o) = slot else { return };
        let strong = self.strong.get_mut(&o).unwrap();
        *strong -= 1;
        if *strong == 0 {
            let fields: Vec<_> = self.fields.keys().filter(|f| f.0 == o).cloned().collect();
            for field in fields {
                let slot = self.fields.remove(&field).unwrap();
                self.release(slot);
            }
        }
    }
}

fn text(line: &str, member: &str) -> String {
    after(line, &format!("\"{member}\":\""), '"')
}

fn number(line: &str, member: &str) -> String {
    after(line, &format!("\"{member}\":"), ',')
        .trim_end_matches('}')
        .into()
}

fn after(line: &str, start: &str, end: char) -> String {
    let (_, rest) = line.split_once(start).unwrap();
    rest.split_once(end).map_or(rest, |(value, _)| value).into()
}
