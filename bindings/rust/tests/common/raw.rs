//! The crate's own src/raw.rs, with what those need who look at every word of every buffer: memory of any length and contents, and its
//! elements as numbers.
#![allow(dead_code, unused_imports)]

#[macro_use]
#[path = "../../src/raw.rs"]
mod inner;

pub use inner::{Given, Work, LISTING};
// The library is linked by the crate.
use planner as _;

/// Plans the input, and lists its file in `out`.
pub fn run(input: &[u8], work: &mut Work, out: &mut [u8]) -> (Given, usize) {
    (inner::run(input, work), inner::list(input, out))
}

/// What an element of a buffer is made of: numbers.
trait Element: Copy {
    fn numbers(&self) -> Vec<i128>;

    /// All its numbers the same.
    fn filled(number: u8) -> Self;
}

macro_rules! number {
    ($($number:ty)*) => { $(
        impl Element for $number {
            fn numbers(&self) -> Vec<i128> {
                vec![i128::try_from(*self).expect("it has at most 64 bits")]
            }

            fn filled(number: u8) -> Self {
                number.into()
            }
        }
    )* };
}

number!(u16 u64 i64 usize);

impl<T: Element, const N: usize> Element for [T; N] {
    fn numbers(&self) -> Vec<i128> {
        self.iter().flat_map(T::numbers).collect()
    }

    fn filled(number: u8) -> Self {
        [T::filled(number); N]
    }
}

/// A buffer with its name: each element by its numbers.
pub struct Words {
    pub name: &'static str,
    pub elements: Vec<Vec<i128>>,
}

macro_rules! helpers {
    ($($name:ident: [$element:ty; $length:literal],)*) => {
        impl Work {
            /// How many elements each buffer must have.
            pub const LENGTHS: [usize; 21] = [$($length),*];

            /// Buffers of these lengths, each number in them the same.
            pub fn filled(lengths: [usize; 21], number: u8) -> Self {
                let mut lengths = lengths.into_iter();
                Self {
                    $($name: vec![<$element>::filled(number); lengths.next().expect("21 of them")].into(),)*
                }
            }

            /// The same, each cut to its listed length.
            pub fn cut(&self) -> Self {
                Self { $($name: self.$name[..$length].into(),)* }
            }

            /// Whether every element after the listed lengths is zero.
            pub fn zero_after(&self) -> bool {
                true $(&& self.$name[$length..].iter().all(|element| *element == <$element>::filled(0)))*
            }

            pub fn words(&self) -> Vec<Words> {
                vec![$(Words { name: stringify!($name), elements: self.$name.iter().map(Element::numbers).collect() },)*]
            }
        }
    };
}

buffers!(helpers);
