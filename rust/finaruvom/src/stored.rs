//! A book and a signer as bytes to store.
use crate::book::Book;
use crate::raw;
use crate::refusal::Refusal;
use crate::signer::Signer;
use crate::sizes::{BOOK_SIZE, SIGNER_SIZE};
use alloc::boxed::Box;

impl Book {
    /// The bytes to store. A book has no padding, so equal books are equal bytes.
    ///
    /// ```
    /// use finaruvom::{Book, Refusal, BOOK_SIZE};
    ///
    /// let book = Book::open(&[7; 16])?;
    /// let stored: Vec<u8> = book.as_bytes().to_vec();
    /// assert_eq!(stored.len(), BOOK_SIZE);
    /// assert_eq!(Book::from_bytes(&stored)?, book);
    /// # Ok::<(), Refusal>(())
    /// ```
    #[must_use]
    pub const fn as_bytes(&self) -> &[u8; BOOK_SIZE] {
        let book = &raw const self.raw;
        // SAFETY: a book is BOOK_SIZE bytes without padding, and lent as long as they are.
        unsafe { &*book.cast::<[u8; BOOK_SIZE]>() }
    }

    /// The book that was stored as these bytes.
    ///
    /// ```
    /// use finaruvom::{Book, Refusal};
    ///
    /// let mut stored = *Book::open(&[7; 16])?.as_bytes();
    /// assert!(Book::from_bytes(&stored).is_ok());
    /// assert_eq!(Book::from_bytes(&stored[1..]), Err(Refusal::Unsound));
    /// // The first byte is the layout.
    /// stored[0] = 1;
    /// assert_eq!(Book::from_bytes(&stored), Err(Refusal::Unsound));
    /// # Ok::<(), Refusal>(())
    /// ```
    ///
    /// # Errors
    ///
    /// [`Refusal::Unsound`] where these are not the bytes of a sound book of this layout: another
    /// length, no opening of this layout, or damage that shows. Damage to a key, for one, does not.
    pub fn from_bytes(bytes: &[u8]) -> Result<Book, Refusal> {
        let bytes: &[u8; BOOK_SIZE] = bytes.try_into().map_err(|_| Refusal::Unsound)?;
        // SAFETY: there are as many bytes as a book has, and any bytes are a book.
        let raw = unsafe { bytes.as_ptr().cast::<raw::Book>().read_unaligned() };
        let book = Book::from_raw(raw);
        // A reading is refused exactly where the book is unsound.
        book.read(0).map(|_| book)
    }
}

impl Signer {
    /// The bytes to store, the seed among them: who reads them can sign. Store them after each
    /// signing, before the signature leaves the till.
    ///
    /// ```
    /// use finaruvom::{Refusal, Signer, SIGNER_SIZE};
    ///
    /// let mut stored = vec![0; SIGNER_SIZE];
    /// // The next leaf stands behind key and seed, in the machine's byte order.
    /// stored[88..92].copy_from_slice(&1_023u32.to_ne_bytes());
    /// let mut signer = Signer::from_bytes(&stored)?;
    /// assert!(signer.sign(&[3; 32], b"two loaves").is_ok());
    /// stored[88..92].copy_from_slice(&1_024u32.to_ne_bytes());
    /// assert_eq!(signer.as_bytes()[..], stored);
    /// assert_eq!(signer.sign(&[3; 32], b"ten loaves"), Err(Refusal::NoLeaf));
    /// # Ok::<(), Refusal>(())
    /// ```
    #[must_use]
    pub const fn as_bytes(&self) -> &[u8; SIGNER_SIZE] {
        let signer = &raw const *self.raw;
        // SAFETY: a signer is SIGNER_SIZE bytes without padding, and lent as long as they are.
        unsafe { &*signer.cast::<[u8; SIGNER_SIZE]>() }
    }

    /// The signer that was stored as these bytes, whatever they are. One from an older copy signs
    /// again with leaves that were used, and so spoils the key: restore the last one stored alone.
    ///
    /// # Errors
    ///
    /// [`Refusal::Length`] where there are not [`SIGNER_SIZE`] bytes. Damage does not show: keep a
    /// digest beside them.
    pub fn from_bytes(bytes: &[u8]) -> Result<Signer, Refusal> {
        let bytes: &[u8; SIGNER_SIZE] = bytes.try_into().map_err(|_| Refusal::Length)?;
        let mut memory = Box::<raw::Signer>::new_uninit();
        // SAFETY: there are as many bytes as a signer has, and any bytes are a signer.
        let raw = unsafe {
            memory
                .as_mut_ptr()
                .cast::<[u8; SIGNER_SIZE]>()
                .copy_from_nonoverlapping(bytes, 1);
            memory.assume_init()
        };
        Ok(Signer { raw })
    }
}
