//! LSO files.
#![forbid(unsafe_code)]

use core::fmt;

use crate::answer::{Answer, Refusal};
use crate::calls::{lso_parse, lso_parse_incomplete, lso_write_to_bytes, record_at, Reading, Record};
use crate::view::{Pairs, Tree, Value};

/// A file, read or judged: its name and its pairs. It is a few words that are copied, and borrows the image and the input.
///
/// ```
/// # fn main() -> Result<(), Box<dyn std::error::Error>> {
/// use riddoskam::{image_room, index_room, File};
///
/// # let path = concat!(env!("CARGO_MANIFEST_DIR"), "/../../samples/prices.sol");
/// let input = std::fs::read(path)?; // samples/prices.sol
/// let mut image = vec![0; image_room(input.len())];
/// let file = File::read(&input, &mut image)?;
/// assert_eq!(file.name(), "prices");
///
/// let price = |shelf: &str| file.get(shelf)?.get("cents")?.as_number();
/// assert_eq!(price("A-01"), Some(129.0));
/// assert_eq!(price("Z-99"), None);
///
/// // By the index, which pays where there are many lookups.
/// let mut index = vec![0; index_room(file.image().len())];
/// let file = file.index(&mut index)?;
/// assert_eq!(file.find(&["A-02", "cents"]).and_then(|cents| cents.as_number()), Some(299.0));
/// # Ok(())
/// # }
/// ```
#[derive(Clone, Copy)]
pub struct File<'a> {
    tree: Tree<'a>,
    name: &'a str,
    stored: u32,
    /// Where its pairs begin.
    body: usize,
}

impl<'a> File<'a> {
    /// Reads a file that is the whole input. [`image_room`](crate::image_room) of its length is always room enough for the image.
    pub fn read(input: &'a [u8], image: &'a mut [u8]) -> Result<File<'a>, Refusal> {
        let Reading { made, .. } = lso_parse(input, image)?;
        File::made(input, image, made)
    }

    /// Reads a file as far as it can be read, and tells the bytes that it takes.
    pub fn read_incomplete(input: &'a [u8], image: &'a mut [u8]) -> Result<(File<'a>, usize), Refusal> {
        let Reading { used, made } = lso_parse_incomplete(input, image)?;
        Ok((File::made(input, image, made)?, used))
    }

    /// The file that a reading made. Its first record is a file's, so it is never refused.
    fn made(input: &'a [u8], image: &'a [u8], made: usize) -> Result<File<'a>, Refusal> {
        File::new(Tree::made(input, image, made)).ok_or(Refusal { answer: Answer::NoTree, place: 0 })
    }

    /// The file of an image from elsewhere, whose texts stand in `text`: refused as [`lso_write_to_bytes`] refuses it, or with [`Answer::OverLimit`] where it
    /// would be. An image that was read here is its first `made` bytes.
    pub fn of(image: &'a [u8], text: &'a [u8]) -> Result<File<'a>, Answer> {
        File::new(Tree::judged(lso_write_to_bytes, image, text)?).ok_or(Answer::NoTree)
    }

    fn new(tree: Tree<'a>) -> Option<File<'a>> {
        match record_at(tree.image, 0).ok()? {
            (Record::Lso { stored, name }, body) => Some(File { tree, name: tree.str(name), stored, body }),
            _ => None,
        }
    }

    /// The same file by an index of all its keys, made in a buffer: [`get`](File::get), here and in what is found here, then goes by the index.
    /// [`index_room`](crate::index_room) of the image's length is always enough. It takes as long as reading the file some ten times, so it pays where there are
    /// some twenty lookups.
    pub fn index(self, buffer: &'a mut [u8]) -> Result<File<'a>, Answer> {
        Ok(File { tree: self.tree.indexed(buffer)?, ..self })
    }

    /// Writes it: the number of bytes written. The length field is set anew. Refused, no byte is changed.
    pub fn write(self, out: &mut [u8]) -> Result<usize, Answer> {
        lso_write_to_bytes(self.tree.image, self.tree.text, out)
    }

    /// Its image, without what stands behind it in the buffer.
    pub fn image(self) -> &'a [u8] {
        self.tree.image
    }

    /// What the image's texts stand in: the input, where it was read.
    pub fn text(self) -> &'a [u8] {
        self.tree.text
    }

    /// Its name.
    pub fn name(self) -> &'a str {
        self.name
    }

    /// The length that its header has, whatever that is of.
    pub fn stored_length(self) -> u32 {
        self.stored
    }

    /// Its pairs, in order, also where a key comes again.
    pub fn pairs(self) -> Pairs<'a> {
        self.tree.pairs(self.body)
    }

    /// The value of the last pair of a key: by the index, if it was made, else by a walk over the pairs.
    pub fn get(self, key: &str) -> Option<Value<'a>> {
        self.tree.get(0, self.pairs(), key)
    }

    /// The value that a path of keys leads to, at each key to its last pair. No keys lead nowhere: a file is no value.
    pub fn find(self, path: &[&str]) -> Option<Value<'a>> {
        let (key, rest) = path.split_first()?;
        self.get(key)?.find(rest)
    }

    /// How many pairs it has, those of a key that comes again too. This counts them.
    pub fn len(self) -> usize {
        self.pairs().count()
    }

    /// Whether it has no pairs.
    pub fn is_empty(self) -> bool {
        self.pairs().next().is_none()
    }
}

impl fmt::Debug for File<'_> {
    /// The file with all that it holds: `File "prices" {"A-01": {"cents": 129.0}}`.
    fn fmt(&self, f: &mut fmt::Formatter<'_>) -> fmt::Result {
        write!(f, "File {:?} ", self.name)?;
        self.pairs().fmt(f)
    }
}
