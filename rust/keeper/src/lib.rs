//! The schema keeper's calls, safe to use on any byte strings.
//!
//! The keeper is proved for every content of what it is lent; what it cannot
//! check are pointers, lengths and overlap, and a slice vouches for these. So
//! nothing here tests anything.
//!
//! What a slice cannot vouch for is the stack: a call needs up to [`STACK`]
//! bytes of it. Threads of the standard library have far more, unless they were
//! asked to have less.
//!
//! ```no_run
//! let mut stores = keeper::Stores::default();
//! let sheet = std::fs::read("forest.sheet").unwrap_or_default();
//! assert_eq!(stores.load(&sheet).number, keeper::DONE);
//! ```

pub mod c;

/// The stores' lengths in the order in which they are lent: attributes, classes,
/// closure.
pub const LENGTHS: [usize; c::STORES] = [48_386, 40_322, 10_240];
/// The closure store's number among them.
pub const CLOSURE: usize = 2;
/// No sheet that a write writes or a load accepts is longer: 410,756 bytes, the
/// heading and the longest rows of both tables. This is proved (`write_longest`
/// and `load_longest` in crates/keeper_promises/specs/Promises.antt). A write
/// whose output is too short says so (number 31).
pub const LONGEST_SHEET: usize = 4 + 256 * 224 + 128 * 2761;
/// So many bytes of stack are enough for every call. This is measured, not
/// proved: the most was some 46,100 (docs/LAYOUT.md).
pub const STACK: usize = 64 * 1024;
/// The number of an answer that refuses nothing.
pub const DONE: u64 = 0;

/// What a call gives back; include/keeper.h names the numbers.
#[derive(Clone, Copy, Debug, PartialEq, Eq)]
pub struct Answer {
    /// 0, or the number that refuses.
    pub number: u64,
    /// 0 none, 1 attributes, 2 classes.
    pub table: u64,
    /// A row, an offset, a limit, a length or a number of steps.
    pub place: u64,
}

/// The answer of a call that tells table and place in its detail.
fn answer(call: impl FnOnce(&mut [u64]) -> u64) -> Answer {
    let mut detail = [0; 2];
    let number = call(&mut detail);
    let [table, place] = detail;
    Answer {
        number,
        table,
        place,
    }
}

/// The stores that are lent to every call, in the order of [`LENGTHS`]: byte
/// strings of any lengths and any bytes, owned or borrowed.
#[derive(Clone, Debug, PartialEq, Eq)]
pub struct Stores<B = Vec<u8>>(pub [B; c::STORES]);

impl Default for Stores {
    /// Stores of their lengths, all zero.
    fn default() -> Stores {
        Stores(LENGTHS.map(|length| vec![0; length]))
    }
}

impl Stores {
    /// The stores of a sheet, or the answer that refuses it.
    pub fn loaded(sheet: &[u8]) -> Result<Stores, Answer> {
        let mut stores = Stores::default();
        match stores.load(sheet) {
            answer if answer.number == DONE => Ok(stores),
            answer => Err(answer),
        }
    }
}

impl<B: AsRef<[u8]>> Stores<B> {
    /// The stores as slices, to be read.
    pub fn lent(&self) -> c::Lent<'_> {
        self.0.each_ref().map(AsRef::as_ref)
    }

    /// Writes the stores as a sheet to the front of the output.
    pub fn write(&self, output: &mut [u8]) -> Answer {
        answer(|detail| c::write(self.lent(), output, detail))
    }

    /// The sheet that a write writes, or the answer that refuses it.
    pub fn sheet(&self) -> Result<Vec<u8>, Answer> {
        let mut sheet = vec![0; LONGEST_SHEET];
        let answer = self.write(&mut sheet);
        if answer.number != DONE {
            return Err(answer);
        }
        sheet.truncate(usize::try_from(answer.place).unwrap_or(0));
        Ok(sheet)
    }

    /// Whether the stores are in order.
    pub fn audit(&self) -> Answer {
        answer(|detail| c::audit(self.lent(), detail))
    }

    /// How many steps lead from a class up its superclasses to class 0.
    pub fn depth(&self, class: u16) -> Answer {
        answer(|detail| c::depth(self.lent(), class, detail))
    }
}

impl<B: AsMut<[u8]>> Stores<B> {
    /// The stores as slices, to be written to.
    pub fn lent_mut(&mut self) -> c::LentMut<'_> {
        self.0.each_mut().map(AsMut::as_mut)
    }

    /// Loads a sheet into the stores.
    pub fn load(&mut self, sheet: &[u8]) -> Answer {
        answer(|detail| c::load(sheet, self.lent_mut(), detail))
    }

    /// Makes a change, where the schema with it is in order too. Refused, no byte
    /// of any store is altered.
    pub fn plain_change(&mut self, change: &[u8]) -> Answer {
        answer(|detail| c::plain_change(change, self.lent_mut(), detail))
    }

    /// Makes a change as [`Stores::plain_change`] does, but judges the changed row
    /// alone and of the stores checks only shape, not whether they are in order.
    /// On stores that a load accepted, and that only these calls have changed
    /// since, it is proved to give what the plain change gives, in every answer
    /// and byte. Refused, no byte of any store is altered.
    pub fn quick_change(&mut self, change: &[u8]) -> Answer {
        answer(|detail| c::quick_change(change, self.lent_mut(), detail))
    }
}
