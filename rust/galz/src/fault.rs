//! What is wrong with a file, in words.

/// A returned number and its place, as galz's own reading finds them, with
/// what is wrong. The printed number and place are the proved library's;
/// these only say which words belong to them.
#[derive(Clone, Debug, PartialEq, Eq)]
pub struct Fault {
    pub number: u32,
    pub place: u32,
    pub words: String,
}

impl Fault {
    pub fn new(number: u32, place: usize, words: String) -> Fault {
        let place = place as u32;
        Fault {
            number,
            place,
            words,
        }
    }
}

/// Keeps the first fault that is found while reading goes on.
#[derive(Default)]
pub struct First(Option<Fault>);

impl First {
    /// Notes a fault, unless one was noted before.
    pub fn note(&mut self, fault: Fault) {
        self.0.get_or_insert(fault);
    }

    /// The fault noted.
    pub fn fault(self) -> Option<Fault> {
        self.0
    }
}
