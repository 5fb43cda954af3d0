use std::{error, fmt};

/// Why a call was not done. Head, areas and a lent buffer are as they were, but for [`LINK`](Refusal::LINK). Its text is the number and
/// the cause.
///
/// ```
/// use smelvock::{Lengths, PrepareEffectTree, Refusal};
///
/// let refusal = PrepareEffectTree::<3>::new(Lengths::default()).unwrap_err();
/// assert_eq!((refusal, refusal.number), (Refusal::SIZE, 1));
/// let error: Box<dyn std::error::Error> = refusal.into();
/// assert_eq!(error.to_string(), "refused by 1: the fan is not 4 to 32, or the limit not 1 to 65,536");
/// ```
#[derive(Clone, Copy, PartialEq, Eq, Debug)]
pub struct Refusal {
    /// Document 01's number, 1 to 11, or document 02's 12 to 21.
    pub number: u32,
}

/// Each refusal's name, number and cause.
macro_rules! refusals {
    ($($name:ident = $number:literal: $cause:literal;)*) => {
        impl Refusal {
            $(#[doc = concat!("Number ", $number, ": ", $cause, ".\n\n```\n# use smelvock::Refusal;\n")]
            #[doc = concat!("assert_eq!(Refusal::", stringify!($name), ".to_string(), \"refused by ", $number, ": ", $cause, "\");\n```")]
            pub const $name: Refusal = Refusal { number: $number };)*

            fn cause(self) -> &'static str {
                match self {
                    $(Refusal::$name => $cause,)*
                    _ => "no call answers this number",
                }
            }
        }
    };
}

refusals! {
    SIZE = 1: "the fan is not 4 to 32, or the limit not 1 to 65,536";
    AREA = 2: "an area is shorter than the limit needs";
    STAMP = 3: "the cursor's stamp is not the present one";
    ID = 4: "there is no such entry or edit";
    POSITION = 5: "the position is at or past the end";
    SPLIT = 6: "the split moves more than the entry has";
    TOTAL = 7: "a total would pass 4,294,967,295";
    FULL = 8: "the tree holds its limit";
    LINK = 9: "a link of the tree leads outside";
    FIELD = 10: "more than 65,535 line ends, a head that is not thirty-six words, a view above 2, a flag above 1, a seat above 7, a seat in a tree without seats, none in a seated one, or an edit whose rest is not zero";
    RECORDS = 11: "records and output are unequally long, or a length is not a multiple of 16";
    BUFFER = 12: "the buffer is below 2,750 bytes a page, or the list area below 512 words";
    LEAF = 13: "the cursor's leaf is not in use";
    SLOT = 14: "the cursor's slot is at or past its leaf's len";
    PARENT = 15: "a parent of an edit is not smaller than the edit";
    EDITS = 16: "the file has more than 512 edits";
    HOLLOW = 17: "the split moves nothing, or leaves nothing behind";
    OVER = 18: "the seat is at or over its share, and the free entries don't outnumber the other seats' unused shares";
    SHARES = 19: "the shares sum to the limit or more";
    BOUNDS = 20: "a lowest length is above the highest, given or left by a split";
    UNSOUND = 21: "no sound tree has the head, lens, child numbers and lengths that repair trusts";
}

impl Refusal {
    /// What a call answered, unless it was refused.
    pub(crate) fn unless<T>(number: u32, answer: impl FnOnce() -> T) -> Result<T, Refusal> {
        match number {
            0 => Ok(answer()),
            number => Err(Refusal { number }),
        }
    }
}

impl fmt::Display for Refusal {
    fn fmt(&self, f: &mut fmt::Formatter<'_>) -> fmt::Result {
        write!(f, "refused by {}: {}", self.number, self.cause())
    }
}

impl error::Error for Refusal {}
