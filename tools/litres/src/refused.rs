//! A refusal: its number, its name and its text, the same as in `include/litres.h`.

use std::error::Error;
use std::fmt::{self, Display, Formatter};

/// A call was refused under this number; no word of the book changed, nor of a replay's answers or a merge's
/// output.
#[derive(Clone, Copy, Debug, PartialEq, Eq, Hash)]
pub struct Refused(pub u32);

macro_rules! refusals {
    ($($number:literal $name:ident $text:literal;)*) => {
        impl Refused {
            $(
                #[doc = concat!("Refusal ", $number, ": ", $text, ".")]
                pub const $name: Refused = Refused($number);
            )*

            /// Every refusal with its name, in the order of the numbers.
            pub const ALL: &'static [(Refused, &'static str)] =
                &[$((Refused($number), stringify!($name)),)*];

            /// What the number means, in words.
            pub fn text(self) -> &'static str {
                match self.0 {
                    $($number => $text,)*
                    _ => "no call returns this number",
                }
            }
        }
    };
}

refusals! {
    1 SHAPE "the shape is outside its limits";
    2 LENGTH "the number of words is not what the shape needs";
    3 GRADE "there is no such grade";
    4 VOLUME "the volume is 0 or above 65535";
    5 WINDOW "the window is longer than an interval";
    6 CLOCK_LIMIT "the new clock is above 2000000000";
    7 HEAD "the first 8 words are not the head of a book";
    8 AHEAD "the stamp is ahead of the clock";
    9 LATE "late: no window reaches back to the stamp any more";
    10 CLOCK_BACK "the new clock is behind the clock";
    11 BLOCK "a grade's words are damaged";
    12 FULL "the interval has no room for the volume";
    13 TRACE "the trace breaks its layout or has an unsound record";
    14 DAY "the trace has no such day";
    15 ROOM "the answers need more words";
    16 ORDER "a day opens with no clock, or clocks fall or pass 2000000000";
    17 OUTPUT "the output is not as long as the two days together";
}

impl Display for Refused {
    fn fmt(&self, f: &mut Formatter<'_>) -> fmt::Result {
        f.write_str(self.text())
    }
}

impl Error for Refused {}
