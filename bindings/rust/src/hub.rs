//! Hubs.
use crate::error::Result;
use crate::object::{reading_calls, Functions, Object};
use crate::raw;
use std::io;
use std::num::NonZeroU16;

static FUNCTIONS: Functions = Functions {
    close: raw::jeihpal_hub_close,
    look: raw::jeihpal_hub_look,
    cell: raw::jeihpal_hub_cell,
    cells: raw::jeihpal_hub_row_cells,
    row_text: raw::jeihpal_hub_row_text,
};

/// A client of a hub, by its key. The key of one that has ended may be given again.
#[derive(Clone, Copy, Debug, Eq, Hash, Ord, PartialEq, PartialOrd)]
pub struct Client(usize);

/// The result of a request for a frame.
#[derive(Clone, Copy, Debug, Eq, Hash, PartialEq)]
#[non_exhaustive]
pub enum Answer {
    /// The screen shows what it did at the client's last frame.
    Unchanged,
    /// Bytes of the last frame still wait for the client.
    Behind,
    /// The program is in a synchronized update of its own (private mode 2026).
    Held,
    /// The frame would be longer than 2,097,150 bytes; never for up to 2,000 cells.
    TooLong,
    /// The frame leads from any picture.
    Full,
    /// It leads from the picture of the client's last frame.
    Difference,
    /// As `Full`, of a screen that shows U+FE0F, on whose width terminals disagree.
    Unsure,
    /// Another result, which this crate doesn't know. From 4 on, the bytes of a new frame wait for the client.
    Other(i32),
}

const ANSWERS: [Answer; 7] = [
    Answer::Unchanged,
    Answer::Behind,
    Answer::Held,
    Answer::TooLong,
    Answer::Full,
    Answer::Difference,
    Answer::Unsure,
];

impl Answer {
    /// Whether there is a new frame, whose bytes now wait for the client.
    pub fn is_frame(self) -> bool {
        match self {
            Answer::Full | Answer::Difference | Answer::Unsure => true,
            Answer::Other(number) => number >= 4,
            _ => false,
        }
    }
}

/// One program's screen, and clients that are sent frames of it.
///
/// What is written to it as [`io::Write`] is fed to it. It may move to another thread:
///
/// ```
/// # let size = std::num::NonZeroU16::new(1).unwrap();
/// let hub = jeihpal::Hub::new(size, size)?;
/// std::thread::spawn(move || drop(hub)).join().unwrap();
/// # Ok::<(), jeihpal::Error>(())
/// ```
///
/// It isn't `Sync`, since reading is a call too. Several threads share one in a [`Mutex`](std::sync::Mutex).
///
/// ```compile_fail,E0277
/// # let size = std::num::NonZeroU16::new(1).unwrap();
/// let hub = jeihpal::Hub::new(size, size).unwrap();
/// std::thread::scope(|scope| scope.spawn(|| hub.contents()).join());
/// ```
pub struct Hub {
    object: Object,
    most_cells: Option<usize>,
}

// SAFETY: nothing that a hub's word holds is shared with another object or tied to a thread, so the library lets it go
// to another thread (jeihpal.h). `&mut` and the missing `Sync` keep to one call at a time.
unsafe impl Send for Hub {}

impl Hub {
    /// A hub with a blank screen of this size, and without clients.
    pub fn new(rows: NonZeroU16, cols: NonZeroU16) -> Result<Hub> {
        // SAFETY, here and below: the word is as the last call left it, and what is lent is lent for the call.
        let fill = |word| unsafe { raw::jeihpal_hub_new(word, rows.get(), cols.get()) };
        Ok(Hub {
            object: Object::new(&FUNCTIONS, fill)?,
            most_cells: None,
        })
    }

    /// The same for sizes that strangers choose: one of more than `most_cells` cells is refused, here and in
    /// [`resize`](Self::resize), by [`Error::TooLarge`](crate::Error::TooLarge).
    pub fn new_within(rows: NonZeroU16, cols: NonZeroU16, most_cells: usize) -> Result<Hub> {
        let fill =
            |word| unsafe { raw::jeihpal_hub_new_within(word, rows.get(), cols.get(), most_cells) };
        Ok(Hub {
            object: Object::new(&FUNCTIONS, fill)?,
            most_cells: Some(most_cells),
        })
    }

    /// Feeds the program's next bytes to the screen. They may be cut anywhere. After [`Error::Memory`] the hub has
    /// failed: it makes no further frames, but bytes that wait for clients can still be sent.
    ///
    /// [`Error::Memory`]: crate::Error::Memory
    pub fn feed(&mut self, bytes: &[u8]) -> Result<()> {
        self.object.give(raw::jeihpal_hub_feed, bytes)
    }

    /// Gives the screen another size, or the same, and ends the program's synchronized update. Every client ends.
    pub fn resize(&mut self, rows: NonZeroU16, cols: NonZeroU16) -> Result<()> {
        let (rows, cols, most_cells) = (rows.get(), cols.get(), self.most_cells);
        self.object.act(|word| unsafe {
            match most_cells {
                Some(most) => raw::jeihpal_hub_resize_within(word, rows, cols, most),
                None => raw::jeihpal_hub_resize(word, rows, cols),
            }
        })
    }

    /// Attaches a new client, which has had no frame.
    pub fn attach(&mut self) -> Result<Client> {
        let mut key = 0;
        self.object
            .call(|word| unsafe { raw::jeihpal_hub_attach(word, &mut key) })?;
        Ok(Client(key))
    }

    /// Adds a client that starts from what this one has once it has read all its frames. No bytes wait for it, and its
    /// next frame starts from there: a terminal that has read this client's frames, or its [`redraw`](Self::redraw),
    /// goes on with the new client's frames.
    pub fn fork(&mut self, client: Client) -> Result<Client> {
        let mut key = 0;
        self.object
            .call(|word| unsafe { raw::jeihpal_hub_fork(word, client.0, &mut key) })?;
        Ok(Client(key))
    }

    /// Detaches a client. Bytes that wait for it are dropped.
    pub fn detach(&mut self, client: Client) -> Result<()> {
        self.object
            .act(|word| unsafe { raw::jeihpal_hub_detach(word, client.0) })
    }

    /// Asks for a frame for a client, best once no bytes wait for it and the program pauses.
    pub fn frame(&mut self, client: Client) -> Result<Answer> {
        let number = self
            .object
            .call(|word| unsafe { raw::jeihpal_hub_frame(word, client.0) })?;
        let known = usize::try_from(number).ok().and_then(|it| ANSWERS.get(it));
        Ok(known.copied().unwrap_or(Answer::Other(number)))
    }

    /// Copies as many as fit of the bytes that wait for the client, and returns how many wait in all.
    pub fn copy_owed(&self, client: Client, to: &mut [u8]) -> Result<usize> {
        self.object.copy(to, |word, to, room, length| unsafe {
            raw::jeihpal_hub_owed(word, client.0, to, room, length)
        })
    }

    /// The bytes that wait for the client: those of its last frame that weren't sent yet.
    pub fn owed(&self, client: Client) -> Result<Vec<u8>> {
        self.object.bytes(|word, to, room, length| unsafe {
            raw::jeihpal_hub_owed(word, client.0, to, room, length)
        })
    }

    /// The bytes that draw, on a fresh terminal of the screen's size, what the client shows once it has read all its
    /// frames.
    ///
    /// Bytes that still wait for it count as read. Before its first frame the redraw is empty. `None` if it is longer
    /// than a terminal buffers.
    pub fn redraw(&self, client: Client) -> Result<Option<Vec<u8>>> {
        let mut answer = 0;
        let text = self.object.bytes(|word, to, room, length| {
            answer = unsafe { raw::jeihpal_hub_redraw(word, client.0, to, room, length) };
            answer
        })?;
        Ok((answer == 0).then_some(text))
    }

    /// A frame for a stream that several terminals read: the bytes that draw, on any terminal of the screen's size,
    /// whatever frames it has read, what the client shows once it has read all its frames.
    ///
    /// It is the [`redraw`](Self::redraw), with escape sequences after the start mark that turn off the mouse's modes
    /// and encodings, and reset the cursor's style. A terminal that has read the client's frames so far shows the same
    /// after it. All these terminals go on with the client's later frames. Before the client's first frame the text is
    /// empty. `None` if it is longer than a terminal buffers.
    pub fn whole_frame(&self, client: Client) -> Result<Option<Vec<u8>>> {
        let mut answer = 0;
        let text = self.object.bytes(|word, to, room, length| {
            answer = unsafe { raw::jeihpal_hub_whole_frame(word, client.0, to, room, length) };
            answer
        })?;
        Ok((answer == 0).then_some(text))
    }

    /// Reports that the first `count` of the bytes that wait for the client were sent. They no longer wait.
    pub fn sent(&mut self, client: Client, count: usize) -> Result<()> {
        self.object
            .act(|word| unsafe { raw::jeihpal_hub_sent(word, client.0, count) })
    }

    /// Writes the bytes that wait for the client. Those that the writer took no longer wait, whatever it returns after
    /// that.
    pub fn pump(&mut self, client: Client, to: &mut impl io::Write) -> io::Result<()> {
        let mut piece = [0; 8192];
        loop {
            let owed = self.copy_owed(client, &mut piece)?;
            if owed == 0 {
                return Ok(());
            }
            let offered = &piece[..owed.min(piece.len())];
            match to.write(offered) {
                Ok(0) => return Err(io::ErrorKind::WriteZero.into()),
                Ok(count) => self.sent(client, count.min(offered.len()))?,
                Err(error) if error.kind() == io::ErrorKind::Interrupted => {}
                Err(error) => return Err(error),
            }
        }
    }

    reading_calls!();

    /// The text of all of it.
    pub fn contents(&self) -> Result<String> {
        self.object.whole_text(raw::jeihpal_hub_contents)
    }
}

impl io::Write for Hub {
    fn write(&mut self, bytes: &[u8]) -> io::Result<usize> {
        self.feed(bytes)?;
        Ok(bytes.len())
    }

    fn flush(&mut self) -> io::Result<()> {
        Ok(())
    }
}
