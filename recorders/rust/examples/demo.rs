//! A small server: four threads serve a session each. A session has a connection, which knows its session and should know it by a
//! `Weak`. One thread makes a mistake, so that one session is never closed.
//!
//! Usage: `demo TRACE [UPGRADES]`

use arc_trace::{fields, Recording, Slot, Traced};
use std::error::Error;
use std::sync::{Arc, Barrier, Weak};
use std::{env, thread};

struct Config;
fields!(Config {});

struct Session {
    number: usize,
    config: Slot<Arc<Config>>,
    connection: Slot<Arc<Connection>>,
}
fields!(Session { config, connection });

impl Drop for Session {
    fn drop(&mut self) {
        println!("session {} is closed", self.number);
    }
}

struct Connection {
    session: Slot<Weak<Session>>,
    resumed: Slot<Arc<Session>>,
}
fields!(Connection { session, resumed });

struct Cache {
    sessions: [Slot<Weak<Session>>; 4],
}
fields!(Cache { sessions });

static ALL_ARE_OPEN: Barrier = Barrier::new(4);

fn serve(number: usize, config: Traced<Config>, cache: Traced<Cache>, upgrades: usize) {
    let session = Traced::new(Session {
        number,
        config: Slot::of(config),
        connection: Slot::empty(),
    });
    let connection = Traced::new(Connection {
        session: Slot::empty(),
        resumed: Slot::empty(),
    });
    if number == 2 {
        connection.set(|c| &c.resumed, session.clone()); // the mistake: it keeps the session
    } else {
        connection.set(|c| &c.session, session.downgrade());
    }
    session.set(|s| &s.connection, connection);
    cache.set(|c| &c.sessions[number], session.downgrade());
    ALL_ARE_OPEN.wait();
    for k in 0..upgrades {
        look_at(&cache, (number + k) % 4);
    }
}

// Another session, if it is still there.
fn look_at(cache: &Traced<Cache>, number: usize) {
    let Some(weak) = cache.get(|c| &c.sessions[number]) else {
        return;
    };
    match weak.upgrade() {
        Some(session) => {
            session.get(|s| &s.config);
            println!("session {number} is there");
        }
        None => println!("session {number} is gone"),
    }
}

fn main() -> Result<(), Box<dyn Error>> {
    let mut words = env::args().skip(1);
    let recording = Recording::to_file(words.next().ok_or("usage: demo TRACE [UPGRADES]")?)?;
    let upgrades = words.next().map_or(Ok(3), |word| word.parse())?;

    let config = Traced::new(Config);
    let cache = Traced::new(Cache {
        sessions: Default::default(),
    });
    thread::scope(|s| {
        for number in 0..4 {
            let (config, cache) = (config.clone(), cache.clone());
            s.spawn(move || serve(number, config, cache, upgrades));
        }
    });
    drop(cache);
    drop(config);

    let operations = recording.finish()?;
    println!("{operations} operations");
    Ok(())
}
