//! The functions of the archive.
use super::{
    Answer, Book, Counted, Found, Line, Payment, Ran, Reading, Settings, Signature, Signer,
    Versions,
};

extern "C" {
    /// The library's version and layout.
    ///
    /// # Safety
    ///
    /// Nothing is asked.
    pub fn finaruvom_version() -> Versions;

    /// The layout. The name carries its number, so that an archive of another layout does not link.
    ///
    /// # Safety
    ///
    /// Nothing is asked.
    #[must_use]
    pub fn finaruvom_layout_6() -> u32;

    /// Writes the digest of at most 65,536 bytes and answers 0; of more, zeros and 2.
    ///
    /// # Safety
    ///
    /// `n` bytes can be read, and 32 written to `digest`, which overlap none of them.
    #[must_use]
    pub fn finaruvom_hash(bytes: *const u8, n: usize, digest: *mut u8) -> u32;

    /// Writes verdict, chain steps and the leaf that signed and answers 0; for a message of more
    /// than 1,024 bytes no, 0, 0 and 2. The leaf is 0 where the verdict is no.
    ///
    /// # Safety
    ///
    /// As many bytes as each length says can be read. `verdict`, which holds false or true, `steps`
    /// and `leaf` can be written and overlap nothing else of the call.
    #[must_use]
    pub fn finaruvom_check(
        key: *const u8,
        key_n: usize,
        message: *const u8,
        message_n: usize,
        signature: *const u8,
        signature_n: usize,
        verdict: *mut bool,
        steps: *mut u32,
        leaf: *mut u32,
    ) -> u32;

    /// The whole length of the command that begins with this byte; 0 where it begins none.
    ///
    /// # Safety
    ///
    /// Nothing is asked.
    #[must_use]
    pub fn finaruvom_size(first: u8) -> usize;

    /// What the plain opening is given.
    ///
    /// # Safety
    ///
    /// Nothing is asked.
    pub fn finaruvom_plain_settings() -> Settings;

    /// What the desk gives for a new book.
    ///
    /// # Safety
    ///
    /// Nothing is asked.
    pub fn finaruvom_desk_settings() -> Settings;

    /// Makes any lent book fresh, with the plain settings, and answers 0; an id that is not 16
    /// bytes long gives 2.
    ///
    /// # Safety
    ///
    /// The book is aligned, can be written and overlaps nothing else; `id_n` bytes can be read.
    #[must_use]
    pub fn finaruvom_open(book: *mut Book, id: *const u8, id_n: usize) -> u32;

    /// Makes any lent book fresh, with these settings and dates, and answers 0; an id that is not
    /// 16 bytes long gives 2, then a default delay out of range 14, then a fee above 1,000 20, then
    /// a date that does not exist 21, then more than 64 of them or one that is not later than the
    /// one before it 22. Where the settings say that there is no list, no date is looked at.
    ///
    /// # Safety
    ///
    /// The book is aligned, can be written and overlaps nothing else; `id_n` bytes and `dates_n`
    /// dates, aligned, can be read.
    #[must_use]
    pub fn finaruvom_open_with(
        book: *mut Book,
        id: *const u8,
        id_n: usize,
        settings: Settings,
        dates: *const u32,
        dates_n: usize,
    ) -> u32;

    /// Carries a command out on the lent book, or refuses it.
    ///
    /// # Safety
    ///
    /// The book is aligned, can be written and overlaps nothing else; `command_n` bytes can be read.
    pub fn finaruvom_apply(book: *mut Book, command: *const u8, command_n: usize) -> Answer;

    /// The reading of channel `n`.
    ///
    /// # Safety
    ///
    /// The book is aligned and can be read.
    pub fn finaruvom_read(book: *const Book, n: usize) -> Reading;

    /// The closing channel with the smallest deadline, of equal ones that with the larger held sum,
    /// and only then the lower number.
    ///
    /// # Safety
    ///
    /// The book is aligned and can be read.
    pub fn finaruvom_due(book: *const Book) -> Found;

    /// Runs a journal on the lent book, one line for each command.
    ///
    /// # Safety
    ///
    /// Book and `lines_n` lines are aligned, can be written and overlap nothing else;
    /// `commands_n` bytes can be read.
    pub fn finaruvom_run(
        book: *mut Book,
        commands: *const u8,
        commands_n: usize,
        lines: *mut Line,
        lines_n: usize,
    ) -> Ran;

    /// Makes a key in the lent signer, whatever stands there, and answers 0; where a length is
    /// wrong 2 and zeros, but 1,024 as the next leaf.
    ///
    /// # Safety
    ///
    /// The signer is aligned, can be written and overlaps nothing else; `seed_n` and `id_n` bytes
    /// can be read.
    #[must_use]
    pub fn finaruvom_make_key(
        signer: *mut Signer,
        seed: *const u8,
        seed_n: usize,
        id: *const u8,
        id_n: usize,
    ) -> u32;

    /// Signs a message with the next leaf and moves to the one after it, or refuses.
    ///
    /// # Safety
    ///
    /// The signer is aligned, can be written and overlaps nothing else; `nonce_n` and `message_n`
    /// bytes can be read.
    pub fn finaruvom_sign(
        signer: *mut Signer,
        nonce: *const u8,
        nonce_n: usize,
        message: *const u8,
        message_n: usize,
    ) -> Signature;

    /// Collects the payments of a run from its commands and lines, the merchant's without the fee;
    /// a list that is too short gives 18.
    ///
    /// # Safety
    ///
    /// `commands_n` bytes and `lines_n` lines, aligned, can be read. `list_n` payments are aligned,
    /// can be written and overlap nothing else.
    pub fn finaruvom_collect(
        commands: *const u8,
        commands_n: usize,
        lines: *const Line,
        lines_n: usize,
        list: *mut Payment,
        list_n: usize,
    ) -> Counted;

    /// Writes an entry of 11 bytes for each payment; one that no entry can hold gives 17, then a
    /// buffer that is too short 18.
    ///
    /// # Safety
    ///
    /// `list_n` payments, aligned, can be read. `buffer_n` bytes can be written and overlap nothing
    /// else.
    pub fn finaruvom_write(
        list: *const Payment,
        list_n: usize,
        buffer: *mut u8,
        buffer_n: usize,
    ) -> Counted;

    /// Reads entries of 11 bytes back; another length or a list that is too short gives 18, then an
    /// entry that is not as one is written 19.
    ///
    /// # Safety
    ///
    /// `bytes_n` bytes can be read. `list_n` payments are aligned, can be written and overlap
    /// nothing else.
    pub fn finaruvom_read_payments(
        bytes: *const u8,
        bytes_n: usize,
        list: *mut Payment,
        list_n: usize,
    ) -> Counted;
}
