//! AMF packets, whole and by entry.
#![forbid(unsafe_code)]

use core::fmt;
use core::iter::FusedIterator;
use core::slice;
use core::str::from_utf8;

use crate::answer::{Answer, Refusal};
use crate::calls::{
    packet_cut, packet_parse, packet_parse_incomplete, packet_parse_span, packet_write_to_bytes, part, record_at, Entry, Numbers, Reading, Record, Role, Text,
};
use crate::view::{Tree, Value};

/// A packet, read or judged: its headers and its messages. It is a few words that are copied, and borrows the image and the input.
///
/// ```
/// # fn main() -> Result<(), Box<dyn std::error::Error>> {
/// use riddoskam::{image_room, Packet};
///
/// # let path = concat!(env!("CARGO_MANIFEST_DIR"), "/../../samples/prices.amf");
/// let input = std::fs::read(path)?; // samples/prices.amf
/// let mut image = vec![0; image_room(input.len())];
/// let packet = Packet::read(&input, &mut image)?;
/// let first = packet.messages().next().unwrap();
/// assert_eq!((first.target, first.response), ("shelf/A-01", "/1"));
/// assert_eq!(first.value.get("cents").and_then(|cents| cents.as_number()), Some(129.0));
/// # Ok(())
/// # }
/// ```
#[derive(Clone, Copy)]
pub struct Packet<'a> {
    tree: Tree<'a>,
    headers: u16,
    messages: u16,
    /// Where its headers begin.
    body: usize,
}

impl<'a> Packet<'a> {
    /// Reads a packet that is the whole input; declared lengths are not looked at. [`image_room`](crate::image_room) of its length is always room enough for the
    /// image. Where one damaged entry is not to cost the others, [`Entries`] reads each alone.
    pub fn read(input: &'a [u8], image: &'a mut [u8]) -> Result<Packet<'a>, Refusal> {
        let Reading { made, .. } = packet_parse(input, image)?;
        Packet::made(input, image, made)
    }

    /// Reads a packet at the front of the input, and tells the bytes that it takes; declared lengths are not looked at.
    pub fn read_incomplete(input: &'a [u8], image: &'a mut [u8]) -> Result<(Packet<'a>, usize), Refusal> {
        let Reading { used, made } = packet_parse_incomplete(input, image)?;
        Ok((Packet::made(input, image, made)?, used))
    }

    /// The packet that a reading made. Its first record is a packet's, so it is never refused.
    fn made(input: &'a [u8], image: &'a [u8], made: usize) -> Result<Packet<'a>, Refusal> {
        Packet::new(Tree::made(input, image, made)).ok_or(Refusal { answer: Answer::NoTree, place: 0 })
    }

    /// The packet of an image from elsewhere, whose texts stand in `text`: refused as [`packet_write_to_bytes`] refuses it, or with [`Answer::OverLimit`] where it
    /// would be. An image that was read here is its first `made` bytes.
    pub fn of(image: &'a [u8], text: &'a [u8]) -> Result<Packet<'a>, Answer> {
        let by = |image: &[u8], text: &[u8], out: &mut [u8]| packet_write_to_bytes(image, text, true, out);
        Packet::new(Tree::judged(by, image, text)?).ok_or(Answer::NoTree)
    }

    fn new(tree: Tree<'a>) -> Option<Packet<'a>> {
        match record_at(tree.image, 0).ok()? {
            (Record::Packet { headers, messages }, body) => Some(Packet { tree, headers, messages, body }),
            _ => None,
        }
    }

    /// Writes it, with exact lengths: the number of bytes written. Refused, no byte is changed.
    pub fn write(self, out: &mut [u8]) -> Result<usize, Answer> {
        packet_write_to_bytes(self.tree.image, self.tree.text, true, out)
    }

    /// Writes it with the length FFFFFFFF, which says that it is not known, for each entry. To cut such a packet each value is read where it stands.
    pub fn write_without_lengths(self, out: &mut [u8]) -> Result<usize, Answer> {
        packet_write_to_bytes(self.tree.image, self.tree.text, false, out)
    }

    /// Its image, without what stands behind it in the buffer.
    pub fn image(self) -> &'a [u8] {
        self.tree.image
    }

    /// What the image's texts stand in: the input, where it was read.
    pub fn text(self) -> &'a [u8] {
        self.tree.text
    }

    /// Its headers, in order.
    pub fn headers(self) -> Headers<'a> {
        Headers { row: Row { tree: self.tree, at: self.body, left: self.headers } }
    }

    /// Its messages, in order.
    pub fn messages(self) -> Messages<'a> {
        let mut headers = self.headers();
        while headers.next().is_some() {}
        Messages { row: Row { left: self.messages, ..headers.row } }
    }
}

impl fmt::Debug for Packet<'_> {
    /// The packet with all that it holds.
    fn fmt(&self, f: &mut fmt::Formatter<'_>) -> fmt::Result {
        f.debug_struct("Packet").field("headers", &self.headers()).field("messages", &self.messages()).finish()
    }
}

/// A header of a packet.
#[derive(Clone, Copy, Debug)]
pub struct Header<'a> {
    /// Its name.
    pub name: &'a str,
    /// Whether it must be understood.
    pub must_understand: bool,
    /// Its value.
    pub value: Value<'a>,
}

/// A message of a packet.
#[derive(Clone, Copy, Debug)]
pub struct Message<'a> {
    /// To whom it goes.
    pub target: &'a str,
    /// By what name an answer is asked for.
    pub response: &'a str,
    /// Its value.
    pub value: Value<'a>,
}

/// Records with a value behind each.
#[derive(Clone)]
struct Row<'a> {
    tree: Tree<'a>,
    at: usize,
    left: u16,
}

impl<'a> Row<'a> {
    fn step(&mut self) -> Option<(Record, Value<'a>)> {
        self.left = self.left.checked_sub(1)?;
        let (record, at) = record_at(self.tree.image, self.at).ok()?;
        let value = self.tree.value(at)?;
        self.at = value.behind()?;
        Some((record, value))
    }

    /// The next, where it is of the kind that is due; else there is no more.
    fn next<T>(&mut self, of: impl FnOnce(Tree<'a>, Record, Value<'a>) -> Option<T>) -> Option<T> {
        let found = self.step().and_then(|(record, value)| of(self.tree, record, value));
        if found.is_none() {
            self.left = 0;
        }
        found
    }
}

/// The headers of a packet, in order.
#[derive(Clone)]
pub struct Headers<'a> {
    row: Row<'a>,
}

impl<'a> Iterator for Headers<'a> {
    type Item = Header<'a>;

    fn next(&mut self) -> Option<Header<'a>> {
        self.row.next(|tree, record, value| match record {
            Record::Header { name, flag } => Some(Header { name: tree.str(name), must_understand: flag, value }),
            _ => None,
        })
    }

    fn size_hint(&self) -> (usize, Option<usize>) {
        (self.row.left.into(), Some(self.row.left.into()))
    }
}

/// The messages of a packet, in order.
#[derive(Clone)]
pub struct Messages<'a> {
    row: Row<'a>,
}

impl<'a> Iterator for Messages<'a> {
    type Item = Message<'a>;

    fn next(&mut self) -> Option<Message<'a>> {
        self.row.next(|tree, record, value| match record {
            Record::Message { target, response } => Some(Message { target: tree.str(target), response: tree.str(response), value }),
            _ => None,
        })
    }

    fn size_hint(&self) -> (usize, Option<usize>) {
        (self.row.left.into(), Some(self.row.left.into()))
    }
}

impl ExactSizeIterator for Headers<'_> {}
impl ExactSizeIterator for Messages<'_> {}
impl FusedIterator for Headers<'_> {}
impl FusedIterator for Messages<'_> {}

impl fmt::Debug for Headers<'_> {
    /// The headers that are left, as a list.
    fn fmt(&self, f: &mut fmt::Formatter<'_>) -> fmt::Result {
        f.debug_list().entries(self.clone()).finish()
    }
}

impl fmt::Debug for Messages<'_> {
    /// The messages that are left, as a list.
    fn fmt(&self, f: &mut fmt::Formatter<'_>) -> fmt::Result {
        f.debug_list().entries(self.clone()).finish()
    }
}

/// The entries of a packet that its lengths cut exactly, headers first. Values of a known length are not looked into before they are read, each alone, so that a
/// damaged one costs itself and no other.
///
/// ```
/// # fn main() -> Result<(), Box<dyn std::error::Error>> {
/// use riddoskam::{Address, Answer, Entries, NO_ENTRY};
///
/// # let path = concat!(env!("CARGO_MANIFEST_DIR"), "/../../samples/bent.amf");
/// let input = std::fs::read(path)?; // samples/bent.amf, in which one byte of a value is bent
/// let (mut list, mut image) = ([NO_ENTRY; 16], [0; 256]);
/// let mut prices = 0;
/// for entry in Entries::cut(&input, &mut list)? {
///     let Address::Message { target, .. } = entry.address() else { continue };
///     match entry.read(&mut image) {
///         Ok(_price) => prices += 1,
///         Err(refusal) => assert_eq!((target, refusal.answer, refusal.place), ("shelf/A-01", Answer::Damaged, 83)),
///     }
/// }
/// assert_eq!(prices, 2);
/// # Ok(())
/// # }
/// ```
#[derive(Clone)]
pub struct Entries<'a> {
    packet: &'a [u8],
    list: slice::Iter<'a, Numbers>,
}

impl<'a> Entries<'a> {
    /// Cuts a packet in one walk, into a list. [`Answer::NoRoom`] where the list is too short.
    pub fn cut(packet: &'a [u8], list: &'a mut [Numbers]) -> Result<Entries<'a>, Refusal> {
        let cutting = packet_cut(packet, list)?;
        let list: &'a [Numbers] = list;
        // By the call's contract there are never more than the list has.
        Ok(Entries { packet, list: list.get(..cutting.count).unwrap_or(list).iter() })
    }

    fn entry(packet: &'a [u8], numbers: &Numbers) -> PacketEntry<'a> {
        PacketEntry { packet, entry: Entry::from(*numbers) }
    }
}

impl<'a> Iterator for Entries<'a> {
    type Item = PacketEntry<'a>;

    fn next(&mut self) -> Option<PacketEntry<'a>> {
        Some(Entries::entry(self.packet, self.list.next()?))
    }

    fn nth(&mut self, number: usize) -> Option<PacketEntry<'a>> {
        Some(Entries::entry(self.packet, self.list.nth(number)?))
    }

    fn size_hint(&self) -> (usize, Option<usize>) {
        self.list.size_hint()
    }
}

impl DoubleEndedIterator for Entries<'_> {
    fn next_back(&mut self) -> Option<Self::Item> {
        Some(Entries::entry(self.packet, self.list.next_back()?))
    }
}

impl ExactSizeIterator for Entries<'_> {}
impl FusedIterator for Entries<'_> {}

impl fmt::Debug for Entries<'_> {
    /// The entries that are left, as a list.
    fn fmt(&self, f: &mut fmt::Formatter<'_>) -> fmt::Result {
        f.debug_list().entries(self.clone()).finish()
    }
}

/// What an entry of a packet is, with its texts.
#[derive(Clone, Copy, Debug, PartialEq, Eq)]
pub enum Address<'a> {
    /// A header.
    Header {
        /// Its name.
        name: &'a str,
        /// Whether it must be understood.
        must_understand: bool,
    },
    /// A message.
    Message {
        /// To whom it goes.
        target: &'a str,
        /// By what name an answer is asked for.
        response: &'a str,
    },
}

/// An entry of a packet, whose value is yet to be read.
#[derive(Clone, Copy)]
pub struct PacketEntry<'a> {
    packet: &'a [u8],
    entry: Entry,
}

impl<'a> PacketEntry<'a> {
    /// Header or message, with its texts.
    pub fn address(self) -> Address<'a> {
        match self.entry.role {
            Role::Header { name, flag } => Address::Header { name: self.str(name), must_understand: flag },
            Role::Message { target, response } => Address::Message { target: self.str(target), response: self.str(response) },
        }
    }

    /// Where its value stands in the packet, and its length.
    pub fn span(self) -> Text {
        self.entry.value
    }

    /// The bytes of its value.
    pub fn bytes(self) -> &'a [u8] {
        part(self.packet, self.entry.value)
    }

    /// Reads its value, as that part of the packet alone; the place of a refusal counts from the packet's start. [`image_room`](crate::image_room) of the value's
    /// length is always room enough.
    pub fn read<'b>(self, image: &'b mut [u8]) -> Result<Value<'b>, Refusal>
    where
        'a: 'b,
    {
        let made = packet_parse_span(self.packet, self.entry.value, image)?.made;
        Value::made(self.packet, image, made)
    }

    /// A text of the entry, which the cut found to be UTF-8.
    fn str(self, text: Text) -> &'a str {
        from_utf8(part(self.packet, text)).unwrap_or("")
    }
}

impl fmt::Debug for PacketEntry<'_> {
    /// Its address, and the length of its value.
    fn fmt(&self, f: &mut fmt::Formatter<'_>) -> fmt::Result {
        f.debug_struct("PacketEntry").field("address", &self.address()).field("bytes", &self.entry.value.length).finish()
    }
}

#[cfg(test)]
mod tests {
    //! Packets that are none, which no caller can hand to this.
    use super::*;

    #[test]
    fn what_is_no_entry_ends_the_row() {
        // Three messages are counted; behind the first stands a header, and a message behind that.
        let message = [0x32, 0, 0, 0, 0, 1, 0, 0, 0, 0, 1, 0x05];
        let header = [0x31, 0, 0, 0, 0, 1, 0, 0x05];
        let mut image = [0; 5 + 12 + 8 + 12];
        image[..5].copy_from_slice(&[0x30, 0, 0, 0, 3]);
        image[5..17].copy_from_slice(&message);
        image[17..25].copy_from_slice(&header);
        image[25..].copy_from_slice(&message);
        fn packet(image: &[u8]) -> Packet<'_> {
            Packet::new(Tree::made(b"a", image, image.len())).unwrap()
        }
        let mut messages = packet(&image).messages();
        assert!(messages.next().is_some_and(|message| message.target == "a"));
        assert!(messages.next().is_none() && messages.next().is_none());
        assert_eq!(messages.len(), 0);
        // The image ends too early, and a value is none.
        assert_eq!(packet(&image[..17]).messages().count(), 1);
        assert_eq!(packet(&image[..16]).messages().count(), 0);
        // A header is counted where a message stands.
        image[2] = 1;
        assert_eq!((packet(&image).headers().count(), Packet::of(&image, b"a").is_err()), (0, true));
    }
}
