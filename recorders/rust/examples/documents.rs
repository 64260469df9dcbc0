//! Documents that are open, and a cache that knows them by `Weak`s, so that it keeps none of them. What it keeps is the allocation of
//! a document whose entry it doesn't forget.
//!
//! Usage: `documents TRACE`

use arc_trace::{fields, Recording, Slot, Traced};
use std::error::Error;
use std::sync::{Arc, Weak};
use std::{env, thread};

struct Text;
fields!(Text {});

struct Document {
    text: Slot<Arc<Text>>,
}
fields!(Document { text });

#[derive(Default)]
struct Cache {
    documents: [Slot<Weak<Document>>; 3],
}
fields!(Cache { documents });

fn open(place: usize, cache: &Traced<Cache>) -> Traced<Document> {
    let document = Traced::new(Document {
        text: Slot::of(Traced::new(Text)),
    });
    cache.set(|c| &c.documents[place], document.downgrade());
    document
}

fn close(place: usize, document: Traced<Document>, cache: &Traced<Cache>) {
    cache.take(|c| &c.documents[place]);
    drop(document);
}

fn main() -> Result<(), Box<dyn Error>> {
    let recording = Recording::to_file(env::args().nth(1).ok_or("usage: documents TRACE")?)?;
    let cache = Traced::new(Cache::default());
    thread::scope(|s| {
        for place in 0..3 {
            let cache = cache.clone();
            s.spawn(move || {
                let document = open(place, &cache);
                if place == 1 {
                    return; // the mistake: the entry stays in the cache
                }
                close(place, document, &cache);
            });
        }
    });
    recording.finish()?; // the cache is still in use
    Ok(())
}
