use core::fmt;

/// The refusals, each once: its name, its number and what it means.
macro_rules! refusals {
    ($($name:ident = $number:literal, $meaning:literal;)*) => {
        /// Why a call was refused. The numbers and names are those of the rules (RULES 2.1).
        ///
        /// Numbers need not follow each other, and more of them may come.
        ///
        /// ```
        /// use mukthiban::Refusal;
        /// assert_eq!(Refusal::NoSpace.number(), 6);
        /// assert_eq!(Refusal::from_number(6), Some(Refusal::NoSpace));
        /// assert_eq!(Refusal::NoSpace.name(), "NoSpace");
        /// assert_eq!(Refusal::from_number(0), None); // 0 is Done
        /// ```
        #[derive(Clone, Copy, Debug, PartialEq, Eq, Hash, PartialOrd, Ord)]
        #[non_exhaustive]
        #[repr(u32)]
        pub enum Refusal {
            $(#[doc = concat!("Number ", $number, ": ", $meaning, ".")] $name = $number,)*
        }

        impl Refusal {
            /// Every refusal, by rising number.
            pub const ALL: &'static [Refusal] = &[$(Refusal::$name),*];

            /// The refusal with that number, if there is one. 0 is Done and no refusal.
            pub fn from_number(number: u32) -> Option<Refusal> {
                match number {
                    $($number => Some(Refusal::$name),)*
                    _ => None,
                }
            }

            /// The rules' name.
            pub fn name(self) -> &'static str {
                match self {
                    $(Refusal::$name => stringify!($name),)*
                }
            }

            /// What it means, in one plain sentence.
            pub fn meaning(self) -> &'static str {
                match self {
                    $(Refusal::$name => $meaning,)*
                }
            }
        }
    };
}

refusals! {
    SizeMismatch = 1, "a table, the hash buckets or the data have a length that does not fit";
    InvalidValue = 2, "a size or a number is outside its bounds, no blocks were asked for, or a new name is not legal";
    WorkTooShort = 3, "the work list or the map has too few places";
    BrokenFat = 4, "the block table is not sound: its chains can't be trusted";
    NotAFile = 5, "the block is not the first block of a file";
    NoSpace = 6, "too few free blocks, or no free entry";
    OutOfBound = 7, "the position plus the length passes the end of the file";
    ListTooShort = 8, "the list is too short for the whole answer";
    BrokenTree = 9, "the entry tables are not sound: directories and files can't be trusted";
    NotFound = 10, "there is no live entry with that inode or name";
    AlreadyExist = 11, "another entry has that name already";
    Busy = 12, "a writer holds it already, or readers remain";
    DeletingRoot = 13, "the root directory can't be deleted or renamed";
    NotEmpty = 14, "the directory is not empty";
    IntoItself = 15, "a directory can't be moved into itself or below itself";
    NotOpen = 16, "the open that this needs is not held";
    TooManyOpens = 17, "it is opened 65,535 times already, or the list of open records is full";
    ReadOnlyVolume = 20, "blocks of this length are no longer in use: the volume can be read and not be changed";
}

impl Refusal {
    /// The rules' number.
    pub fn number(self) -> u32 {
        self as u32
    }
}

/// Name, number and meaning in one line.
///
/// ```
/// assert_eq!(mukthiban::Refusal::NotEmpty.to_string(), "NotEmpty (14): the directory is not empty");
/// ```
impl fmt::Display for Refusal {
    fn fmt(&self, f: &mut fmt::Formatter<'_>) -> fmt::Result {
        write!(f, "{} ({}): {}", self.name(), self.number(), self.meaning())
    }
}

impl core::error::Error for Refusal {}

/// As the standard library's files say it; the refusal is its source.
///
/// ```
/// use mukthiban::Refusal;
/// let error = std::io::Error::from(Refusal::NoSpace);
/// assert_eq!(error.kind(), std::io::ErrorKind::StorageFull);
/// ```
#[cfg(feature = "std")]
impl From<Refusal> for std::io::Error {
    fn from(refusal: Refusal) -> std::io::Error {
        use std::io::ErrorKind;
        let kind = match refusal {
            Refusal::NoSpace => ErrorKind::StorageFull,
            Refusal::NotFound => ErrorKind::NotFound,
            Refusal::AlreadyExist => ErrorKind::AlreadyExists,
            Refusal::Busy | Refusal::TooManyOpens => ErrorKind::ResourceBusy,
            Refusal::NotEmpty => ErrorKind::DirectoryNotEmpty,
            Refusal::ReadOnlyVolume => ErrorKind::ReadOnlyFilesystem,
            Refusal::BrokenFat | Refusal::BrokenTree | Refusal::SizeMismatch => ErrorKind::InvalidData,
            _ => ErrorKind::InvalidInput,
        };
        std::io::Error::new(kind, refusal)
    }
}

/// `Ok` for 0, else the refusal. The library is proved to answer no other number.
pub(crate) fn judge(number: u32) -> Result<(), Refusal> {
    match number {
        0 => Ok(()),
        other => Err(Refusal::from_number(other).expect("the library answers a number of the table")),
    }
}

#[cfg(test)]
mod tests {
    use super::Refusal;

    /// `NoSpace` is `MUKTHIBAN_NO_SPACE`.
    fn c_name(name: &str) -> String {
        let mut c = String::from("MUKTHIBAN");
        for letter in name.chars() {
            if letter.is_uppercase() {
                c.push('_');
            }
            c.extend(letter.to_uppercase());
        }
        c
    }

    /// The header has these numbers under these names, and no others but Done.
    #[test]
    fn as_in_the_header() {
        let header = include_str!("../../../include/mukthiban_types.h");
        let list = header.split_once("MUKTHIBAN_DONE = 0,").unwrap().1.split_once("};").unwrap().0;
        let in_c: Vec<&str> =
            list.lines().map(|line| line.split("/*").next().unwrap().trim().trim_end_matches(',')).collect();
        // A comment goes on in lines that begin with a star.
        let in_c: Vec<&str> = in_c.into_iter().filter(|line| !line.is_empty() && !line.starts_with('*')).collect();
        let ours: Vec<String> = Refusal::ALL.iter().map(|r| format!("{} = {}", c_name(r.name()), r.number())).collect();
        assert_eq!(in_c, ours);
    }

    /// The C texts are these.
    #[test]
    fn texts_in_c() {
        let header = include_str!("../../../include/mukthiban_text.h");
        for r in Refusal::ALL {
            let case = format!("case {}:\n        return \"{}\";", c_name(r.name()), r.meaning());
            assert!(header.contains(&case), "{case}");
        }
        assert_eq!(header.matches("case ").count(), Refusal::ALL.len() + 1);
    }

    #[test]
    fn by_number() {
        assert!(Refusal::ALL.is_sorted_by_key(|r| r.number()));
        for number in 0..64 {
            assert_eq!(Refusal::from_number(number).map_or(0, Refusal::number) != 0, known(number));
        }
        assert_eq!(Refusal::from_number(u32::MAX), None);
    }

    fn known(number: u32) -> bool {
        Refusal::ALL.iter().any(|r| r.number() == number)
    }
}
