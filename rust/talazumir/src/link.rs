//! Commands from a link, whose octets come in fragments that end anywhere.
//!
//! [`Link`] puts them together in memory of its own; [`lent::take`] takes one fragment in memory of the caller's.
//!
//! ```
//! use talazumir::link::{Link, Progress};
//!
//! // Two headers alone, each a command that lacks its Session-Id (263) at octet 20, and the start of a third.
//! let header = [1, 0, 0, 20, 0xC0, 0x80, 0, 0x73, 1, 0, 0, 0x84, 0, 0, 0, 1, 0, 0, 0, 2];
//! let run = [&header[..], &header, &header[..3]].concat();
//! let mut link = Link::new();
//!
//! // The first 30 octets end in the second command. A call takes no more than one command.
//! let taken = link.take(&run[..30]);
//! assert_eq!(taken.octets, 20);
//! assert!(matches!(taken.progress, Progress::Command(verdict) if verdict.number == 5005));
//! assert_eq!(link.command(), Some(&header[..]));
//!
//! // What was not taken is offered again, here alone, and then what follows it.
//! let verdicts: Vec<_> = link.commands([&run[20..30], &run[30..]]).collect();
//! assert_eq!(verdicts.len(), 1);
//! assert_eq!(link.unfinished(), [1, 0, 0]);
//! ```

use crate::lent::{self, State, BUFFER, LOG_NUMBERS};
use crate::Verdict;
use std::fmt;
use std::iter::{Fuse, FusedIterator};

/// What stopped a call.
#[derive(Clone, Copy, Debug, PartialEq, Eq, Hash)]
pub enum Progress {
    /// The fragment's end: all of it was taken, and the command goes on.
    Unfinished,
    /// The end of a command, which [`read`](crate::read) gives this verdict, accepted or refused. The run goes on.
    Command(Verdict),
    /// A refusal of the run: 5015 at 1 for a length field under 20, 7001 at 1 for one above 16,384, and from then on
    /// 7009. From [`lent::take`] also 7004 for a buffer that is too short, and 7009 for a state that no run leads to.
    Refusal(Verdict),
}

/// What comes back for a fragment.
#[must_use = "octets that were not taken are to be offered again"]
#[derive(Clone, Copy, Debug, PartialEq, Eq, Hash)]
pub struct Taken {
    /// How many of its octets were taken. The others are to be offered again, alone or before the next fragment.
    pub octets: usize,
    /// What stopped the call.
    pub progress: Progress,
}

/// Puts the commands of one link together from fragments. However a run is cut, the verdicts, the octets taken in total
/// and the octets left unfinished are the same.
#[derive(Clone)]
pub struct Link {
    state: State,
    buffer: Box<[u8; BUFFER]>,
    log: Box<[u32; LOG_NUMBERS]>,
    /// How long the command is that the last call found, if it found one.
    found: Option<usize>,
}

impl Link {
    /// A link before its first octet.
    pub fn new() -> Link {
        Link { state: State::fresh(), buffer: Box::new([0; BUFFER]), log: Box::new([0; LOG_NUMBERS]), found: None }
    }

    /// Takes a fragment up to its end, the end of one whole command or a refusal, whichever comes first.
    pub fn take(&mut self, fragment: &[u8]) -> Taken {
        let held = self.state.held as usize;
        let step = lent::take(self.state, fragment, &mut self.buffer[..], &mut self.log);
        let progress = step.progress();
        self.state = step.state;
        self.found = matches!(progress, Progress::Command(_)).then_some(held + step.taken);
        Taken { octets: step.taken, progress }
    }

    /// The octets of the command that the last call found; none where it found none, as at the end of
    /// [`commands`](Link::commands). [`read`](crate::read) gives their record.
    pub fn command(&self) -> Option<&[u8]> {
        self.found.map(|length| &self.buffer[..length])
    }

    /// The octets taken of a command that has not ended. Where the run has stopped they are the four that stopped it.
    pub fn unfinished(&self) -> &[u8] {
        &self.buffer[..self.state.held as usize]
    }

    /// Whether a refusal has stopped the run, so that nothing is taken any more.
    pub fn is_stopped(&self) -> bool {
        self.state.stopped != 0
    }

    /// Forgets what is held, and that the run has stopped: the next octet is the first of a command.
    pub fn start_afresh(&mut self) {
        self.state = State::fresh();
        self.found = None;
    }

    /// Takes these fragments one after the other, each as a whole, and gives the verdict of each command that ends in
    /// them. An error is the refusal that stops the run, 7009 if it has stopped before, and the last item.
    ///
    /// It takes octets only as it is run, so it is to be run until it gives none. Who leaves it before offers again
    /// what it has not taken: first its [`rest`](Commands::rest), then the fragments that it has not asked for.
    ///
    /// ```
    /// let header = [1, 0, 0, 20, 0xC0, 0x80, 0, 0x73, 1, 0, 0, 0x84, 0, 0, 0, 1, 0, 0, 0, 2];
    /// // A command, then a length field of 19; nothing is taken behind its last octet.
    /// let run = [&header[..], &[1, 0, 0, 19, 0xC0]].concat();
    /// let mut link = talazumir::Link::new();
    /// let mut commands = link.commands(run.chunks(6));
    /// assert!(matches!(commands.next(), Some(Ok(verdict)) if (verdict.number, verdict.place) == (5005, 20)));
    /// assert_eq!(commands.command(), Some(&header[..]));
    /// assert!(matches!(commands.next(), Some(Err(refusal)) if (refusal.number, refusal.place) == (5015, 1)));
    /// assert_eq!(commands.next(), None);
    /// assert_eq!((commands.unfinished(), commands.rest()), (&[1, 0, 0, 19][..], &[][..]));
    ///
    /// // Left behind its first command, of three, and gone on with.
    /// let run = header.repeat(3);
    /// let mut fragments = run.chunks(50);
    /// link.start_afresh();
    /// let mut commands = link.commands(fragments.by_ref());
    /// assert!(commands.next().is_some());
    /// let rest = commands.rest().to_vec();
    /// assert_eq!(link.commands(std::iter::once(&rest[..]).chain(fragments)).count(), 2);
    /// ```
    pub fn commands<I>(&mut self, fragments: I) -> Commands<'_, I::IntoIter>
    where
        I: IntoIterator,
        I::Item: AsRef<[u8]>,
    {
        Commands { link: self, fragments: fragments.into_iter().fuse(), fragment: None, taken: 0, has_stopped: false }
    }
}

impl fmt::Debug for Link {
    /// The state, without the memory behind it: 16,384 octets and 2,304 numbers.
    fn fmt(&self, f: &mut fmt::Formatter<'_>) -> fmt::Result {
        f.debug_struct("Link").field("state", &self.state).field("found", &self.found).finish_non_exhaustive()
    }
}

impl Default for Link {
    fn default() -> Link {
        Link::new()
    }
}

/// The commands that end in some fragments of a link; see [`Link::commands`]. The link goes on where this stops: octets
/// of an unfinished command are held by it. Of the fragment at hand only the [`rest`](Commands::rest) is to be offered
/// to it again.
#[must_use = "octets are taken only as it is run"]
pub struct Commands<'l, I: Iterator> {
    link: &'l mut Link,
    fragments: Fuse<I>,
    fragment: Option<I::Item>,
    /// How many octets of the fragment are taken.
    taken: usize,
    has_stopped: bool,
}

impl<I: Iterator<Item: AsRef<[u8]>>> Commands<'_, I> {
    /// The octets of the command whose verdict came last; none behind a refusal, and at the end.
    pub fn command(&self) -> Option<&[u8]> {
        self.link.command()
    }

    /// The octets taken of a command that has not ended.
    pub fn unfinished(&self) -> &[u8] {
        self.link.unfinished()
    }

    /// The octets of the fragment at hand that are not taken.
    pub fn rest(&self) -> &[u8] {
        self.fragment.as_ref().map_or(&[], |fragment| &fragment.as_ref()[self.taken..])
    }
}

impl<I: Iterator> fmt::Debug for Commands<'_, I> {
    /// The link's state and how far the fragment at hand is taken, without the fragments.
    fn fmt(&self, f: &mut fmt::Formatter<'_>) -> fmt::Result {
        f.debug_struct("Commands").field("link", &self.link).field("taken", &self.taken).finish_non_exhaustive()
    }
}

impl<I: Iterator<Item: AsRef<[u8]>>> Iterator for Commands<'_, I> {
    type Item = Result<Verdict, Verdict>;

    fn next(&mut self) -> Option<Result<Verdict, Verdict>> {
        self.link.found = None;
        while !self.has_stopped {
            if self.rest().is_empty() {
                // Before the source is asked, which may panic.
                self.fragment = None;
                self.taken = 0;
                self.fragment = self.fragments.next();
            }
            let fragment = self.fragment.as_ref()?;
            let taken = self.link.take(&fragment.as_ref()[self.taken..]);
            self.taken += taken.octets;
            match taken.progress {
                Progress::Unfinished => {}
                Progress::Command(verdict) => return Some(Ok(verdict)),
                Progress::Refusal(refusal) => {
                    self.has_stopped = true;
                    return Some(Err(refusal));
                }
            }
        }
        None
    }
}

impl<I: Iterator<Item: AsRef<[u8]>>> FusedIterator for Commands<'_, I> {}
