//! The rules of a state's image, read for display: which word breaks which.
//!
//! The proved engine refuses such an image with 1 and does not tell where; docs/FORMAT.md has the rules.

use std::collections::BTreeSet;

/// What is wrong, and where.
pub type Fault = String;

/// The words that may need all 32 bits; so may each record's length.
const WIDE: [usize; 4] = [0, 1, 714, 715];
/// The highest number of an identifier, and the greatest size of a count.
const LAST_NUMBER: u32 = 1_023;
const COUNT: u32 = 32_767;
/// A count of 0, as a word.
const ZERO: u32 = 32_768;

/// An image's words.
pub struct Image<'a>(pub &'a [u32]);

impl<'a> Image<'a> {
    /// The first rule that is broken, in the order of the words.
    pub fn check(&self) -> Result<(), Fault> {
        self.narrow()?;
        self.lengths()?;
        self.windows()?;
        self.listed()?;
        self.buffer()?;
        self.records()?;
        let blocks = self.0[0] / 4_096;
        self.rule(712, self.0[712] < blocks, "no block of the card")?;
        let is_none = self.0[715] > 0 || self.0[713..715] == [0, 0];
        self.rule(715, is_none, "no steps, though there is an output")
    }

    /// The words of the used places of an array, so many a place, behind the word that counts them.
    pub fn used(&self, count: usize, most: usize, each: usize) -> Vec<&'a [u32]> {
        let used = (self.0[count] as usize).min(most);
        let places = self.0[count + 1..].chunks_exact(each);
        places.take(used).collect()
    }

    /// A fault of a word, where a rule is not kept.
    fn rule(&self, place: usize, is_kept: bool, what: &str) -> Result<(), Fault> {
        match is_kept {
            true => Ok(()),
            false => Err(format!("image: word {place} is {}: {what}", self.0[place])),
        }
    }

    fn narrow(&self) -> Result<(), Fault> {
        for (place, &word) in self.0.iter().enumerate() {
            let is_length = (457..712).contains(&place) && (place - 457) % 5 == 2;
            let is_kept = word < 65_536 || is_length || WIDE.contains(&place);
            self.rule(place, is_kept, "not below 65536")?;
        }
        Ok(())
    }

    fn lengths(&self) -> Result<(), Fault> {
        let is_length = |length: u32, unit: u32, least: u32, most: u32| {
            length.is_multiple_of(unit) && (least..=most).contains(&(length / unit))
        };
        let is_card = is_length(self.0[0], 4_096, 4, 4_096);
        self.rule(0, is_card, "no length of a card")?;
        let is_register = is_length(self.0[1], 65, 1, 1_024);
        self.rule(1, is_register, "no length of a register")
    }

    fn windows(&self) -> Result<(), Fault> {
        let [last, live, open, events] = [2, 3, 4, 5].map(|place| self.0[place]);
        self.rule(3, live <= last, "above the last window number given")?;
        if open == 0 {
            self.rule(5, events == 0, "events, though no window is open")?;
            return self.rule(6, self.0[6] == 0, "identifiers, though no window is open");
        }
        self.rule(4, open == last, "not the last window number given")?;
        self.rule(3, live < open, "not below the open window")?;
        self.rule(5, events <= COUNT, "more than 32767 events")
    }

    fn listed(&self) -> Result<(), Fault> {
        self.places(6, 64, &[0])?;
        let mut seen = BTreeSet::new();
        for (place, word) in (7..).zip(self.used(6, 64, 1)) {
            self.rule(place, word[0] <= LAST_NUMBER, "no identifier's number")?;
            self.rule(place, seen.insert(word[0]), "twice in the open window")?;
        }
        Ok(())
    }

    fn buffer(&self) -> Result<(), Fault> {
        self.places(71, 128, &[0, 0, ZERO])?;
        let [last, open, events] = [2, 4, 5].map(|place| self.0[place]);
        let mut before = None;
        for (place, posting) in (72..).step_by(3).zip(self.used(71, 128, 3)) {
            let [id, window, raised] = [posting[0], posting[1], posting[2]];
            self.rule(place, id <= LAST_NUMBER, "no identifier's number")?;
            let is_window = (1..=last).contains(&window);
            self.rule(place + 1, is_window, "no window that was given")?;
            let is_count = raised != ZERO && raised.abs_diff(ZERO) <= COUNT;
            self.rule(place + 2, is_count, "no count")?;
            let of_open = window != open || (ZERO + 1..=ZERO + events).contains(&raised);
            self.rule(place + 2, of_open, "no count of the open window")?;
            // Identifiers ascend, and windows fall within one.
            let order = (id, u32::MAX - window);
            self.rule(place, before < Some(order), "out of order")?;
            before = Some(order);
        }
        Ok(())
    }

    fn records(&self) -> Result<(), Fault> {
        self.places(456, 51, &[0; 5])?;
        let content = self.0[0] / 4_096 * 4_092;
        let mut before = 5;
        let mut of_level = [0; 6];
        for (place, record) in (457..).step_by(5).zip(self.used(456, 51, 5)) {
            let level = record[1];
            self.rule(place + 1, level <= before, "a level above the one before")?;
            before = level;
            of_level[level as usize] += 1;
            let most = [16, 8, 8, 8, 8, 3][level as usize];
            let fits = of_level[level as usize] <= most;
            self.rule(place + 1, fits, "one partition more than the level has")?;
            self.rule(place + 2, record[2] <= content, "more than the card holds")?;
            let [lowest, highest] = [record[3], record[4]];
            self.rule(place + 3, lowest > 0, "no window")?;
            self.rule(place + 3, lowest <= highest, "above the highest window")?;
        }
        Ok(())
    }

    /// An array's count, and that its places past it are as they are unused.
    fn places(&self, count: usize, most: usize, unused: &[u32]) -> Result<(), Fault> {
        let used = self.0[count] as usize;
        let what = format!("more than {most} places");
        self.rule(count, used <= most, &what)?;
        let each = unused.len();
        for place in used * each..most * each {
            let at = count + 1 + place;
            let is_kept = self.0[at] == unused[place % each];
            self.rule(at, is_kept, "in a place that is not used")?;
        }
        Ok(())
    }
}
