//! Values one behind the other.
#![forbid(unsafe_code)]

use core::fmt;
use core::iter::FusedIterator;
use core::mem::take;

use crate::answer::{Answer, Refusal};
use crate::calls::{parse_single_element, Reading};
use crate::view::Value;

/// The image that a value is first read into. Where it doesn't fit, one of twice the length is tried, so that no value costs a pass over all of a long buffer.
const FIRST_TRY: usize = 64;

/// The values of an input, one behind the other, as in the script data of a video or the arguments of a call. They are read one by one, into one image, each behind
/// the one before, so that all of them may be kept. [`image_room`](crate::image_room) of the input's length is always room enough. A value that is refused is the
/// last; its place counts from the input's start.
///
/// ```
/// # use riddoskam::{Answer, Refusal, Values};
/// let mut image = [0; 64];
/// let values: Result<Vec<_>, _> = Values::new(b"\x05\x01\x01\x02\0\x02hi", &mut image).collect();
/// let values = values?;
/// assert!(values[0].is_null());
/// assert_eq!(values[1].as_bool(), Some(true));
/// assert_eq!(values[2].as_str(), Some("hi"));
///
/// let mut values = Values::new(b"\x05\x04", &mut image);
/// assert!(values.next().is_some_and(|first| first.is_ok()));
/// assert_eq!(values.next().unwrap().unwrap_err(), Refusal { answer: Answer::NotRight, place: 1 });
/// assert!(values.next().is_none());
/// # Ok::<_, Refusal>(())
/// ```
#[must_use = "values are read as they are asked for"]
pub struct Values<'a> {
    /// What is left of the input, and how much of it was used.
    input: &'a [u8],
    used: usize,
    /// What is left of the image.
    image: &'a mut [u8],
}

impl<'a> Values<'a> {
    /// The values of an input, to be read into an image.
    pub fn new(input: &'a [u8], image: &'a mut [u8]) -> Values<'a> {
        Values { input, used: 0, image }
    }

    /// The bytes of the input that the values so far have used.
    pub fn used(&self) -> usize {
        self.used
    }

    /// Reads the value at the front of what is left, with no more of the image than twice what it needs.
    fn read(&mut self) -> Result<Reading, Refusal> {
        let mut room = FIRST_TRY;
        while let Some(image) = self.image.get_mut(..room) {
            match parse_single_element(self.input, image) {
                Err(Refusal { answer: Answer::NoRoom, .. }) => room *= 2,
                answered => return answered,
            }
        }
        parse_single_element(self.input, self.image)
    }

    /// Parts what was read from the rest.
    fn part(&mut self, reading: Reading) -> Result<Value<'a>, Refusal> {
        // By the call's contract it is never more than there is.
        let (made, image) = take(&mut self.image).split_at_mut_checked(reading.made).unwrap_or_default();
        let input = self.input;
        self.image = image;
        self.input = input.get(reading.used..).unwrap_or(&[]);
        self.used += reading.used;
        Value::made(input, made, reading.made)
    }
}

impl<'a> Iterator for Values<'a> {
    type Item = Result<Value<'a>, Refusal>;

    fn next(&mut self) -> Option<Result<Value<'a>, Refusal>> {
        if self.input.is_empty() {
            return None;
        }
        Some(match self.read() {
            Ok(reading) => self.part(reading),
            Err(refusal) => {
                self.input = &[];
                Err(Refusal { place: self.used + refusal.place, ..refusal })
            }
        })
    }

    fn size_hint(&self) -> (usize, Option<usize>) {
        (usize::from(!self.input.is_empty()), Some(self.input.len()))
    }
}

impl FusedIterator for Values<'_> {}

impl fmt::Debug for Values<'_> {
    /// How much of the input was used, and how much is left.
    fn fmt(&self, f: &mut fmt::Formatter<'_>) -> fmt::Result {
        f.debug_struct("Values").field("used", &self.used).field("left", &self.input.len()).finish()
    }
}
