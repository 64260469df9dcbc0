//! Settings that are changed where they stand, and a window that knows them by a `Weak`. Nobody drops them, and yet the window finds
//! them gone.
//!
//! Usage: `settings TRACE`

use arc_trace::{fields, Recording, Slot, Traced};
use std::error::Error;
use std::sync::{Arc, Weak};
use std::{env, thread};

#[derive(Clone)]
struct Theme;
fields!(Theme {});

#[derive(Clone)]
struct Settings {
    size: u32,
    theme: Slot<Arc<Theme>>,
}
fields!(Settings { theme });

struct Window {
    settings: Slot<Weak<Settings>>,
}
fields!(Window { settings });

fn draw(window: &Traced<Window>) {
    let settings = window.get(|w| &w.settings).and_then(|weak| weak.upgrade());
    match settings {
        Some(settings) => println!("drawn with size {}", settings.size),
        None => println!("the settings are gone"),
    }
}

fn main() -> Result<(), Box<dyn Error>> {
    let recording = Recording::to_file(env::args().nth(1).ok_or("usage: settings TRACE")?)?;
    let mut settings = Traced::new(Settings {
        size: 10,
        theme: Slot::of(Traced::new(Theme)),
    });
    let window = Traced::new(Window {
        settings: Slot::of(settings.downgrade()),
    });
    thread::scope(|s| {
        s.spawn(|| draw(&window));
    });
    settings.make_mut().size = 12;
    draw(&window);
    println!("the settings have size {}", settings.size);
    drop(window);
    drop(settings);
    recording.finish()?;
    Ok(())
}
