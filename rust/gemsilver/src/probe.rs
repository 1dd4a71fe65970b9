//! A probe: its three buffers, and the calls on them.

use crate::{Entry, Forecast, Found, Hit, Identifier, Mean, Refusal, Snapshot, Stretch, bytes};
use core::fmt;

/// A probe: the state's image, the card and the register, which belong together.
///
/// `B` is what holds the bytes: a `Vec<u8>` or an array's `Box` owns them, `&mut [u8]` borrows them, and with `&[u8]` there are only the calls
/// that read. The answers of [`query`](Probe::query) and [`mean`](Probe::mean) are those of a plain ledger of live windows after every history of
/// calls from [`start`](Probe::start), wherever flushes and merge steps fall, and those of [`forecast`](Probe::forecast) are what the planned calls would
/// then come to: that is proved of the functions called.
#[derive(Clone, PartialEq, Eq)]
pub struct Probe<B> {
    image: B,
    card: B,
    register: B,
}

/// The buffers' lengths: a card may have 16 MiB.
impl<B: AsRef<[u8]>> fmt::Debug for Probe<B> {
    fn fmt(&self, out: &mut fmt::Formatter<'_>) -> fmt::Result {
        out.debug_struct("Probe")
            .field("image", &self.image().len())
            .field("card", &self.card().len())
            .field("register", &self.register().len())
            .finish()
    }
}

impl<B: AsRef<[u8]>> Probe<B> {
    /// The probe that these buffers hold, as an earlier one left them. Nothing is judged here: every call judges what it reads.
    ///
    /// ```
    /// # use gemsilver::{IMAGE, Probe, Refusal};
    /// let (mut image, mut card, mut register) = ([0; IMAGE], [0; 4 * 4096], [0; 65]);
    /// Probe::start(&mut image[..], &mut card, &mut register)?.open()?;
    /// let mut probe = Probe::resume(&mut image[..], &mut card, &mut register);
    /// assert_eq!(probe.open(), Err(Refusal::OutOfTurn));
    /// # Ok::<(), Refusal>(())
    /// ```
    pub fn resume(image: B, card: B, register: B) -> Self {
        Probe {
            image,
            card,
            register,
        }
    }

    /// The state's image.
    pub fn image(&self) -> &[u8] {
        self.image.as_ref()
    }

    /// The card.
    pub fn card(&self) -> &[u8] {
        self.card.as_ref()
    }

    /// The register.
    pub fn register(&self) -> &[u8] {
        self.register.as_ref()
    }

    /// The buffers: image, card and register.
    pub fn into_buffers(self) -> (B, B, B) {
        (self.image, self.card, self.register)
    }

    /// The probe as one file.
    ///
    /// ```
    /// # use gemsilver::{IMAGE, Probe, Snapshot};
    /// # use std::io::Write;
    /// let probe = Probe::start(vec![0; IMAGE], vec![0; 4 * 4096], vec![0; 65])?;
    /// let mut file = Vec::new(); // or a file that was opened
    /// probe.snapshot().write(|piece| file.write_all(piece))?;
    /// let read = Snapshot::read(&file)?;
    /// assert_eq!(read.probe().card(), probe.card());
    /// # Ok::<(), Box<dyn std::error::Error>>(())
    /// ```
    pub fn snapshot(&self) -> Snapshot<'_> {
        Snapshot {
            image: self.image(),
            card: self.card(),
            register: self.register(),
        }
    }

    /// Fills the list with the closed windows of the stretch that score highest on 1 to 5 different identifiers, by falling score, then falling
    /// number. The list has 1 to 32 places; those past the last hit stay as they are.
    ///
    /// A window's score is the sum of S(count + 1) x (S(N) - S(F)) over the identifiers that count in it. S(n) is the largest a with
    /// 2^a <= n^16, N the number of closed windows of the stretch, and F the number of those in which the identifier counts.
    ///
    /// A partition whose windows all lie outside the stretch is passed over: its postings are not taken up, and its lists are not read.
    ///
    /// ```
    /// # use gemsilver::{Hit, IMAGE, Probe, Stretch};
    /// # let mut probe = Probe::start(vec![0; IMAGE], vec![0; 4 * 4096], vec![0; 65])?;
    /// for _ in 0..2 {
    ///     probe.open()?;
    ///     probe.event("TILT")?;
    ///     probe.close()?;
    /// }
    /// probe.open()?;
    /// probe.event("TILT")?; // the open window is no result yet
    /// let mut hits = [Hit::default(); 32];
    /// let found = probe.query(&["TILT".into()], Stretch::ALL, &mut hits)?;
    /// assert_eq!((found.hits, found.taken), (2, 3));
    /// assert_eq!(hits[0], Hit { window: 2, score: 0 });
    /// let found = probe.query(&["TILT".into()], Stretch { first: 1, last: 1 }, &mut hits)?;
    /// assert_eq!((found.hits, found.taken), (1, 3)); // what is buffered is always taken up
    /// assert_eq!(hits[0], Hit { window: 1, score: 0 });
    /// # Ok::<(), gemsilver::Refusal>(())
    /// ```
    pub fn query(
        &self,
        identifiers: &[Identifier<'_>],
        stretch: Stretch,
        hits: &mut [Hit],
    ) -> Result<Found, Refusal> {
        let hits = Hit::bytes_of(hits);
        bytes::query(
            self.image(),
            self.card(),
            self.register(),
            identifiers,
            stretch,
            hits,
        )
    }

    /// The mean count of an identifier over the closed windows in which it counts, with what the division leaves over.
    ///
    /// ```
    /// # use gemsilver::{IMAGE, Mean, Probe, Refusal};
    /// # let mut probe = Probe::start(vec![0; IMAGE], vec![0; 4 * 4096], vec![0; 65])?;
    /// for count in [3, 2] {
    ///     probe.open()?;
    ///     for _ in 0..count {
    ///         probe.event("COIN")?;
    ///     }
    ///     probe.close()?;
    /// }
    /// assert_eq!(probe.mean("COIN"), Ok(Mean { quotient: 2, remainder: 1, windows: 2 }));
    /// assert_eq!(probe.mean("DOOR"), Err(Refusal::Uncounted));
    /// # Ok::<(), Refusal>(())
    /// ```
    pub fn mean(&self, identifier: impl AsRef<[u8]>) -> Result<Mean, Refusal> {
        bytes::mean(
            self.image(),
            self.card(),
            self.register(),
            identifier.as_ref(),
        )
    }

    /// What a planned session would come to, before it is begun: how many flushes, blocks of finished partitions and register entries, and
    /// where it would stop. The plan has all events in order, and `counts` tells how many of them belong to each window; the windows are opened, their events
    /// counted, and closed, with no merge steps between. Nothing is changed, and the card is not read.
    ///
    /// ```
    /// # use gemsilver::{Forecast, IMAGE, Probe, Refusal, Stop};
    /// # let probe = Probe::start(vec![0; IMAGE], vec![0; 4 * 4096], vec![0; 2 * 65])?;
    /// let plan = ["COIN", "COIN", "TILT", "COIN", "DOOR"].map(Into::into);
    /// let told = probe.forecast(&plan[..4], &[3, 0, 1])?; // three windows, the second without events
    /// assert_eq!(told, Forecast { flushes: 0, blocks: 0, entries: 2, stop: None });
    /// let told = probe.forecast(&plan, &[3, 2])?; // two entries are all that the register has
    /// assert_eq!(told.stop, Some(Stop { window: 2, event: 2, refusal: Refusal::RegisterFull }));
    /// assert_eq!(probe.forecast(&plan, &[3, 1]), Err(Refusal::Malformed)); // the plan has five events
    /// # Ok::<(), Refusal>(())
    /// ```
    pub fn forecast(&self, plan: &[Entry], counts: &[u32]) -> Result<Forecast, Refusal> {
        bytes::forecast(self.image(), self.register(), Entry::bytes_of(plan), counts)
    }
}

impl<B: AsRef<[u8]> + AsMut<[u8]>> Probe<B> {
    /// A fresh card, an empty register and the state that goes with them, in these buffers, whatever they held. The image has
    /// [`IMAGE`](crate::IMAGE) bytes, the card 4 to 4,096 blocks of 4,096, the register 1 to 1,024 entries of 65. Where it is refused, card and
    /// register stay as they were; the image is then one of zeros. Arrays of different lengths are lent as slices: the first by `[..]`, and the
    /// others follow.
    ///
    /// ```
    /// # use gemsilver::{IMAGE, Probe, Refusal};
    /// let (mut image, mut card, mut register) = ([0; IMAGE], [0; 4 * 4096], [0; 65]);
    /// let probe = Probe::start(&mut image[..], &mut card, &mut register)?;
    /// assert!(probe.card().iter().all(|&byte| byte == 255));
    /// let refused = Probe::start(vec![0; IMAGE], vec![0; 3 * 4096], vec![0; 65]);
    /// assert_eq!(refused, Err(Refusal::WrongLength));
    /// # Ok::<(), Refusal>(())
    /// ```
    pub fn start(image: B, card: B, register: B) -> Result<Self, Refusal> {
        let mut probe = Probe::resume(image, card, register);
        let Probe {
            image,
            card,
            register,
        } = &mut probe;
        bytes::start(image.as_mut(), card.as_mut(), register.as_mut())?;
        Ok(probe)
    }

    /// Opens a window and answers its number.
    ///
    /// ```
    /// # use gemsilver::{IMAGE, Probe, Refusal};
    /// # let mut probe = Probe::start(vec![0; IMAGE], vec![0; 4 * 4096], vec![0; 65])?;
    /// assert_eq!(probe.open(), Ok(1));
    /// assert_eq!(probe.open(), Err(Refusal::OutOfTurn));
    /// # Ok::<(), Refusal>(())
    /// ```
    pub fn open(&mut self) -> Result<u32, Refusal> {
        bytes::open(self.image.as_mut())
    }

    /// Counts an identifier in the open window: 1 to 64 bytes, never shortened. A full buffer is written to the card first.
    ///
    /// ```
    /// # use gemsilver::{IMAGE, Probe, Refusal};
    /// # let mut probe = Probe::start(vec![0; IMAGE], vec![0; 4 * 4096], vec![0; 65])?;
    /// probe.open()?;
    /// assert_eq!(probe.event([b'x'; 64]), Ok(()));
    /// assert_eq!(probe.event([b'x'; 65]), Err(Refusal::BadIdentifier));
    /// assert_eq!(probe.event("DOOR"), Err(Refusal::RegisterFull));
    /// # Ok::<(), Refusal>(())
    /// ```
    pub fn event(&mut self, identifier: impl AsRef<[u8]>) -> Result<(), Refusal> {
        bytes::event(
            self.image.as_mut(),
            self.card.as_mut(),
            self.register.as_mut(),
            identifier.as_ref(),
        )
    }

    /// Closes the open window, which queries find from then on; one without events gives its number back.
    ///
    /// ```
    /// # use gemsilver::{IMAGE, Probe, Refusal};
    /// # let mut probe = Probe::start(vec![0; IMAGE], vec![0; 4 * 4096], vec![0; 65])?;
    /// probe.open()?;
    /// assert_eq!(probe.close(), Ok(()));
    /// assert_eq!(probe.close(), Err(Refusal::OutOfTurn));
    /// assert_eq!(probe.open(), Ok(1)); // the first one had no events
    /// # Ok::<(), Refusal>(())
    /// ```
    pub fn close(&mut self) -> Result<(), Refusal> {
        bytes::close(self.image.as_mut())
    }

    /// Takes out a closed window. What lies on the card of it stays there: its counts are buffered once more, negated.
    ///
    /// ```
    /// # use gemsilver::{IMAGE, Probe, Refusal};
    /// # let mut probe = Probe::start(vec![0; IMAGE], vec![0; 4 * 4096], vec![0; 65])?;
    /// probe.open()?;
    /// probe.event("TILT")?;
    /// probe.close()?;
    /// assert_eq!(probe.remove(1), Ok(()));
    /// assert_eq!(probe.remove(1), Err(Refusal::NotLive));
    /// # Ok::<(), Refusal>(())
    /// ```
    pub fn remove(&mut self, window: u32) -> Result<(), Refusal> {
        bytes::remove(self.image.as_mut(), self.card.as_mut(), window)
    }

    /// Takes out all windows of a list, of 1 to 32 different ones, in the order given, or none of them.
    ///
    /// ```
    /// # use gemsilver::{IMAGE, Probe, Refusal};
    /// # let mut probe = Probe::start(vec![0; IMAGE], vec![0; 4 * 4096], vec![0; 65])?;
    /// for _ in 0..2 {
    ///     probe.open()?;
    ///     probe.event("TILT")?;
    ///     probe.close()?;
    /// }
    /// assert_eq!(probe.remove_all(&[1, 2, 3]), Err(Refusal::NotLive)); // none is removed
    /// assert_eq!(probe.remove_all(&[1, 2]), Ok(()));
    /// # Ok::<(), Refusal>(())
    /// ```
    pub fn remove_all(&mut self, windows: &[u32]) -> Result<(), Refusal> {
        bytes::remove_all(self.image.as_mut(), self.card.as_mut(), windows)
    }

    /// Writes what is buffered to the card as one partition; an empty buffer writes nothing.
    ///
    /// ```
    /// # use gemsilver::{IMAGE, Probe, Refusal};
    /// # let mut probe = Probe::start(vec![0; IMAGE], vec![0; 4 * 4096], vec![0; 65])?;
    /// probe.open()?;
    /// for _ in 0..2 {
    ///     probe.event("TILT")?;
    ///     assert_eq!(probe.flush(), Ok(()));
    /// }
    /// probe.event("TILT")?;
    /// assert_eq!(probe.flush(), Err(Refusal::HalfFull)); // four blocks take two partitions
    /// # Ok::<(), Refusal>(())
    /// ```
    pub fn flush(&mut self) -> Result<(), Refusal> {
        bytes::flush(self.image.as_mut(), self.card.as_mut())
    }

    /// Takes the merge in progress a step further, sixteen pairs, or begins the one that is due.
    ///
    /// ```
    /// # use gemsilver::{IMAGE, Probe, Refusal};
    /// # let mut probe = Probe::start(vec![0; IMAGE], vec![0; 16 * 4096], vec![0; 65])?;
    /// assert_eq!(probe.step(), Err(Refusal::NothingDue));
    /// probe.open()?;
    /// for _ in 0..8 {
    ///     probe.event("TILT")?;
    ///     probe.flush()?;
    /// }
    /// assert_eq!(probe.step(), Ok(())); // one pair: one step
    /// assert_eq!(probe.step(), Err(Refusal::NothingDue));
    /// # Ok::<(), Refusal>(())
    /// ```
    pub fn step(&mut self) -> Result<(), Refusal> {
        bytes::step(self.image.as_mut(), self.card.as_mut())
    }
}
