//! Events: where an annotation opens and closes, and the output cut at them.

use crate::sizes::EVENT_WORDS;
use core::iter::{Copied, FusedIterator};
use core::slice::Iter;

/// Whether an annotation opens or closes.
///
/// ```
/// use pursegable::{Event, Mark};
///
/// assert_eq!(Event::from_words([0, 1, 7]).mark(), Mark::Open);
/// assert_eq!(Event::default().mark(), Mark::Close);
/// ```
#[derive(Clone, Copy, Debug, PartialEq, Eq, Hash)]
pub enum Mark {
    /// Opens.
    Open,
    /// Closes.
    Close,
}

/// An event: an annotation opens or closes before a byte of the output.
///
/// Those that lend their own buffers lend a run of them; what they hold doesn't matter.
///
/// ```
/// let mut events = [pursegable::Event::default(); 64];
/// # let _ = &mut events;
/// ```
#[repr(C)]
#[derive(Clone, Copy, Debug, Default, PartialEq, Eq, Hash)]
pub struct Event {
    offset: u32,
    mark: u32,
    label: u32,
}

impl Event {
    /// The event of these words, in the order of the record: offset, mark, label.
    ///
    /// ```
    /// let event = pursegable::Event::from_words([3, 1, 7]);
    /// assert_eq!((event.offset(), event.label()), (3, 7));
    /// ```
    #[must_use]
    pub const fn from_words([offset, mark, label]: [u32; EVENT_WORDS]) -> Event {
        Event { offset, mark, label }
    }

    /// The words of the record.
    ///
    /// ```
    /// assert_eq!(pursegable::Event::from_words([3, 1, 7]).words(), [3, 1, 7]);
    /// ```
    #[must_use]
    pub const fn words(self) -> [u32; EVENT_WORDS] {
        [self.offset, self.mark, self.label]
    }

    /// The output byte before which it stands.
    ///
    /// ```
    /// assert_eq!(pursegable::Event::from_words([3, 1, 7]).offset(), 3);
    /// ```
    #[must_use]
    pub const fn offset(self) -> usize {
        self.offset as usize
    }

    /// Whether it opens or closes.
    ///
    /// ```
    /// assert_eq!(pursegable::Event::from_words([3, 0, 7]).mark(), pursegable::Mark::Close);
    /// ```
    #[must_use]
    pub const fn mark(self) -> Mark {
        if self.mark == 0 { Mark::Close } else { Mark::Open }
    }

    /// The label of the annotation; a closing has its opening's.
    ///
    /// ```
    /// assert_eq!(pursegable::Event::from_words([3, 0, 7]).label(), 7);
    /// ```
    #[must_use]
    pub const fn label(self) -> u32 {
        self.label
    }
}

/// The events of a layout in their order, from [`Laid::events`](crate::Laid::events).
///
/// ```
/// use pursegable::{Draft, Mark, Strip};
/// # fn main() -> Result<(), pursegable::Refused> {
/// let draft = Draft::new();
/// let note = draft.annotate("Dis", 7)?;
/// let mut strip = Strip::new();
/// let laid = strip.sheet(&draft, note)?;
/// let events: Vec<_> = laid.events().map(|event| (event.offset(), event.mark(), event.label())).collect();
/// assert_eq!(events, [(0, Mark::Open, 7), (3, Mark::Close, 7)]);
/// # Ok(())
/// # }
/// ```
#[derive(Clone, Debug)]
pub struct Events<'a>(Copied<Iter<'a, Event>>);

impl<'a> Events<'a> {
    pub(crate) fn of(records: &'a [Event]) -> Self {
        Events(records.iter().copied())
    }
}

impl Iterator for Events<'_> {
    type Item = Event;

    fn next(&mut self) -> Option<Event> {
        self.0.next()
    }

    fn size_hint(&self) -> (usize, Option<usize>) {
        self.0.size_hint()
    }
}

impl DoubleEndedIterator for Events<'_> {
    fn next_back(&mut self) -> Option<Event> {
        self.0.next_back()
    }
}

impl ExactSizeIterator for Events<'_> {}
impl FusedIterator for Events<'_> {}

/// A piece of the output: text without an event in it, or an event.
///
/// ```
/// use pursegable::Piece;
///
/// /// As a terminal that prints marked rows in red would take it.
/// fn coloured(piece: Piece) -> &str {
///     match piece {
///         Piece::Text(text) => text,
///         Piece::Open(_) => "\x1b[31m",
///         Piece::Close(_) => "\x1b[0m",
///     }
/// }
/// assert_eq!(coloured(Piece::Close(1)), "\x1b[0m");
/// ```
#[derive(Clone, Copy, Debug, PartialEq, Eq)]
pub enum Piece<'a> {
    /// Text, never empty.
    Text(&'a str),
    /// An annotation with this label opens.
    Open(u32),
    /// An annotation with this label closes.
    Close(u32),
}

/// The output cut at its events, from [`Laid::pieces`](crate::Laid::pieces).
///
/// ```
/// use pursegable::{Draft, Piece, Strip};
/// # fn main() -> Result<(), pursegable::Refused> {
/// let draft = Draft::new();
/// let row = draft.append("! ", draft.annotate("Dis", 7))?;
/// let mut strip = Strip::new();
/// let pieces: Vec<_> = strip.sheet(&draft, row)?.pieces().collect();
/// assert_eq!(pieces, [Piece::Text("! "), Piece::Open(7), Piece::Text("Dis"), Piece::Close(7)]);
/// # Ok(())
/// # }
/// ```
#[derive(Clone, Debug)]
pub struct Pieces<'a> {
    text: &'a str,
    at: usize,
    events: &'a [Event],
}

impl<'a> Pieces<'a> {
    pub(crate) fn of(text: &'a str, events: &'a [Event]) -> Self {
        Pieces { text, at: 0, events }
    }
}

impl<'a> Iterator for Pieces<'a> {
    type Item = Piece<'a>;

    fn next(&mut self) -> Option<Piece<'a>> {
        let end = self.events.first().map_or(self.text.len(), |event| event.offset());
        if self.at < end {
            let text = &self.text[self.at..end];
            self.at = end;
            return Some(Piece::Text(text));
        }
        let (event, rest) = self.events.split_first()?;
        self.events = rest;
        Some(match event.mark() {
            Mark::Open => Piece::Open(event.label()),
            Mark::Close => Piece::Close(event.label()),
        })
    }
}

impl FusedIterator for Pieces<'_> {}
