//! Terminal screens that arrive whole.
//!
//! A [`Hub`] keeps the screen of one program, and makes frames of it for its clients: at most one frame waits for each.
//! A [`View`] is a small far terminal that reads frames. A [`Screen`] is a terminal's screen made of a program's bytes,
//! with escape sequences that redraw it; module [`vt100`] has one with the names of the crate `vt100` 0.18.1. A
//! [`Recording`] has the events of an asciicast, a typescript or a ttyrec. A [`Filter`] draws a program's lines, on the
//! way to a hub or a screen.
//!
//! ```
//! use std::num::NonZeroU16;
//! use jeihpal::{Answer, Hub, View};
//!
//! let [rows, cols] = [1, 20].map(|n| NonZeroU16::new(n).unwrap());
//! let (mut hub, mut view) = (Hub::new(rows, cols)?, View::new(rows, cols)?);
//! let client = hub.attach()?;
//! hub.feed(b"[####      ]  40%")?;
//! assert_eq!(hub.frame(client)?, Answer::Full);
//! hub.pump(client, &mut view)?; // any `io::Write`
//! assert_eq!(view.row_text(0)?, "[####      ]  40%");
//! # Ok::<(), Box<dyn std::error::Error>>(())
//! ```
//!
//! For the library below, it is proved in Rattle what each call returns and does. That the declarations here fit it is
//! only tested. Objects are `Send`, and not `Sync`. An object is freed when it is dropped. No call waits.
//! Rows and columns are counted from 0.
#![deny(missing_docs, unsafe_op_in_unsafe_fn)]

mod cell;
mod error;
mod filter;
mod hub;
mod object;
mod raw;
mod recording;
mod screen;
mod sgr;
mod stops;
mod view;
pub mod vt100;

pub use cell::{Cell, Color, CursorStyle, Drawing, Look, MouseProtocolEncoding, MouseProtocolMode};
pub use error::{Error, Result};
pub use filter::Filter;
pub use hub::{Answer, Client, Hub};
pub use recording::{Change, Event, Fault, Kind, Recording};
pub use screen::{Request, Screen};
pub use view::View;
