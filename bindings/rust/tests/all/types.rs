//! What the types are, beside what they answer: shared by threads, wiped, and shown by no text; errors that are sentences.

use crate::common::*;
use cukvashe_des::columns::{ColumnError, PbeError, ValueError};
use cukvashe_des::key_wrap::{UnwrapError, WrapError};
use cukvashe_des::mac::*;
use cukvashe_des::padding::{BufferTooSmall, UnpadError};
use cukvashe_des::passwords::{DeriveError, OpenError};
use cukvashe_des::payment::*;
use cukvashe_des::stream::{BitsError, CfbDecryptor, CfbEncryptor, Ctr, Mode, Ofb, Segment, Stream};
use cukvashe_des::*;
use std::error::Error;
use std::fmt::Debug;
use std::fs;
use std::mem::{size_of, MaybeUninit};
use std::path::{Path, PathBuf};
use std::slice;

/// Calls a macro with each type that holds a secret, and a value of it.
macro_rules! each_secret {
    ($call:ident) => {
        $call!(Des, Des::new_from_slice(&KEY[..8]).unwrap());
        $call!(TdesEde2, TdesEde2::new_from_slice(&KEY[..16]).unwrap());
        $call!(TdesEde3, TdesEde3::new(&KEY));
        $call!(CbcMacDes, CbcMacDes::new_from_slice(&KEY[..8], Padding::Method1).unwrap());
        $call!(CbcMacTdesEde2, CbcMacTdesEde2::new_from_slice(&KEY[..16], Padding::Method2).unwrap());
        $call!(CbcMacTdesEde3, CbcMacTdesEde3::new_from_slice(&KEY, Padding::Method1).unwrap());
        $call!(RetailMacDes, RetailMacDes::new_from_slice(&KEY[..16], Padding::Method2).unwrap());
        $call!(CmacTdesEde2, CmacTdesEde2::new_from_slice(&KEY[..16]).unwrap());
        $call!(CmacTdesEde3, CmacTdesEde3::new_from_slice(&KEY).unwrap());
        $call!(Pin, Pin::new(b"123456789012").unwrap());
        $call!(Stream, Stream::new(Mode::Ofb, &[7; 8]));
        $call!(Ofb, Ofb::new(TdesEde3::new(&KEY), &[7; 8]));
        $call!(CfbEncryptor, CfbEncryptor::new(TdesEde3::new(&KEY), &[7; 8], Segment::Bits8));
        $call!(CfbDecryptor, CfbDecryptor::new(TdesEde3::new(&KEY), &[7; 8], Segment::Bits8));
    };
}

fn shared_by_threads<T: Send + Sync + Clone>(_: &T) {}

#[test]
fn secrets_are_shared_by_threads() {
    macro_rules! shared {
        ($type:ident, $value:expr) => {
            shared_by_threads(&$value);
        };
    }
    each_secret!(shared);
}

fn is_shown_as<T: Debug>(value: &T, name: &str) {
    assert_eq!(format!("{value:?}"), format!("{name} {{ ... }}"));
    assert_eq!(format!("{value:#?}"), format!("{name} {{ ... }}"));
    assert_eq!(format!("{:?}", [value]), format!("[{name} {{ ... }}]"));
}

#[test]
fn secrets_are_not_shown() {
    macro_rules! shown {
        ($type:ident, $value:expr) => {
            is_shown_as(&$value, stringify!($type));
        };
    }
    each_secret!(shown);
}

/// Compares the bytes of two values.
fn differ<T>(with_tables: T, no_tables: T) {
    let bytes = |value: *const T| {
        // SAFETY: the value is there as long as this looks at it. Its types are made of words, with nothing between them.
        unsafe { slice::from_raw_parts(value.cast::<u8>(), size_of::<T>()) }
    };
    assert!(bytes(&with_tables) != bytes(&no_tables));
}

/// What `new_no_tables` makes says so in its context: it is not what `new` makes.
#[test]
fn ciphers_without_tables_have_other_contexts() {
    let (one, two) = (KEY[..8].try_into().unwrap(), KEY[..16].try_into().unwrap());
    differ(Des::new(one), Des::new_no_tables(one));
    differ(TdesEde2::new(two), TdesEde2::new_no_tables(two));
    differ(TdesEde3::new(&KEY), TdesEde3::new_no_tables(&KEY));
    for padding in [Padding::Method1, Padding::Method2] {
        differ(CbcMacDes::new(one, padding), CbcMacDes::new_no_tables(one, padding));
        differ(CbcMacTdesEde2::new(two, padding), CbcMacTdesEde2::new_no_tables(two, padding));
        differ(CbcMacTdesEde3::new(&KEY, padding), CbcMacTdesEde3::new_no_tables(&KEY, padding));
        differ(RetailMacDes::new(two, padding), RetailMacDes::new_no_tables(two, padding));
    }
    differ(CmacTdesEde2::new(two), CmacTdesEde2::new_no_tables(two));
    differ(CmacTdesEde3::new(&KEY), CmacTdesEde3::new_no_tables(&KEY));
    let slices = (CmacTdesEde3::new_from_slice(&KEY), CmacTdesEde3::new_no_tables_from_slice(&KEY));
    differ(slices.0.unwrap(), slices.1.unwrap());
    for size in [8, 16, 24] {
        let key = &KEY[..size];
        match (Cipher::new_from_slice(key).unwrap(), Cipher::new_no_tables_from_slice(key).unwrap()) {
            (Cipher::Des(with_tables), Cipher::Des(no_tables)) if size == 8 => differ(with_tables, no_tables),
            (Cipher::TdesEde2(with_tables), Cipher::TdesEde2(no_tables)) if size == 16 => {
                differ(with_tables, no_tables)
            }
            (Cipher::TdesEde3(with_tables), Cipher::TdesEde3(no_tables)) if size == 24 => {
                differ(with_tables, no_tables)
            }
            others => panic!("{others:?}"),
        }
    }
}

/// Drops a value, and looks at the bytes where it was.
fn is_wiped<T>(value: T) {
    let mut place = MaybeUninit::new(value);
    // SAFETY: the value is there, and is dropped once. Its types are made of words, or of bytes, which have a value still.
    let bytes =
        |place: &MaybeUninit<T>| unsafe { slice::from_raw_parts(place.as_ptr().cast::<u8>(), size_of::<T>()) }.to_vec();
    assert!(bytes(&place).iter().any(|&byte| byte != 0));
    unsafe { place.assume_init_drop() };
    assert_eq!(bytes(&place), vec![0; size_of::<T>()]);
}

#[test]
fn secrets_are_wiped() {
    macro_rules! wiped {
        ($type:ident, $value:expr) => {
            is_wiped($value);
            is_wiped($value.clone());
        };
    }
    each_secret!(wiped);
    is_wiped(Terminal::new(&[7; 16], &[9; 10]));
}

/// What is left of a MAC in a `Box` when the box is dropped after its tag was made and verified.
fn is_wiped_in_a_box<M: Mac>(mut mac: Box<M>) {
    mac.update(b"message");
    let tag = mac.tag();
    assert_eq!((mac.verify_tag(&tag), mac.verify_tag_truncated_left(&tag[..4])), (Ok(()), Ok(())));
    let place = Box::into_raw(mac);
    // SAFETY: the value is dropped once, and its memory, made of words, is given back once, after it was looked at.
    let left = unsafe {
        place.drop_in_place();
        let left = slice::from_raw_parts(place.cast::<u8>(), size_of::<M>()).to_vec();
        drop(Box::from_raw(place.cast::<MaybeUninit<M>>()));
        left
    };
    assert_eq!(left, vec![0; size_of::<M>()]);
}

#[test]
fn macs_are_used_in_a_box() {
    is_wiped_in_a_box(Box::new(CbcMacDes::new_from_slice(&KEY[..8], Padding::Method1).unwrap()));
    is_wiped_in_a_box(Box::new(CbcMacTdesEde2::new_from_slice(&KEY[..16], Padding::Method2).unwrap()));
    is_wiped_in_a_box(Box::new(CbcMacTdesEde3::new_from_slice(&KEY, Padding::Method1).unwrap()));
    is_wiped_in_a_box(Box::new(RetailMacDes::new_from_slice(&KEY[..16], Padding::Method2).unwrap()));
    is_wiped_in_a_box(Box::new(CmacTdesEde2::new_from_slice(&KEY[..16]).unwrap()));
    is_wiped_in_a_box(Box::new(CmacTdesEde3::new_from_slice(&KEY).unwrap()));
}

/// Of a cipher that its key's length chose no more is shown than which one it is.
#[test]
fn chosen_ciphers_are_no_different() {
    let ciphers = [8, 16, 24].map(|size| Cipher::new_from_slice(&KEY[..size]).unwrap());
    ciphers.iter().for_each(shared_by_threads);
    assert_eq!(format!("{ciphers:?}"), "[Des(Des { ... }), TdesEde2(TdesEde2 { ... }), TdesEde3(TdesEde3 { ... })]");
    let made = [Des::new(&[7; 8]).into(), TdesEde2::new(&[7; 16]).into(), TdesEde3::new(&[7; 24]).into()];
    assert!(matches!(made, [Cipher::Des(_), Cipher::TdesEde2(_), Cipher::TdesEde3(_)]));
}

/// Of a stream by CTR the first counter block stays, which is no secret.
#[test]
fn counters_are_no_different() {
    let ctr = Ctr::new(TdesEde3::new(&KEY), &[7; 8]);
    shared_by_threads(&ctr);
    is_shown_as(&ctr, "Ctr");
}

/// A terminal has no clone, which would give its keys again; the rest is as of the others.
#[test]
fn terminals_are_no_different() {
    fn shared<T: Send + Sync>(_: &T) {}
    let terminal = Terminal::new(&[7; 16], &[9; 10]);
    shared(&terminal);
    is_shown_as(&terminal, "Terminal");
    is_shown_as(&DecimalTable::new(b"0123456789012345").unwrap(), "DecimalTable");
}

/// A key out of a key block has no clone either. No byte of it is left when it is dropped, also of the longest.
#[test]
fn keys_of_blocks_are_no_different() {
    fn shared<T: Send + Sync>(_: &T) {}
    let protection = 0xdd7515f2bfc17f85ce48f3ca25cb21f6u128.to_be_bytes();
    let block = b"B0080P0TE00E000094B420079CC80BA3461F86FE26EFC4A3B8E4FA4C5F5341176EED7B727B8A248E";
    let mut other = [0; 200];
    let header = key_blocks::header(block).unwrap();
    let size = key_blocks::wrap(&protection, &header, &[], &KEY, &[7; 6], &mut other).unwrap();
    for block in [&block[..], &other[..size]] {
        let (_, key) = key_blocks::unwrap(&protection, block).unwrap();
        shared(&key);
        is_shown_as(&key, "BlockKey");
        let bytes = key.bytes().to_vec();
        let mut place = MaybeUninit::new(key);
        // SAFETY: as of `is_wiped`; what is read is made of bytes and of a number, with nothing between them.
        let left = unsafe {
            place.assume_init_drop();
            slice::from_raw_parts(place.as_ptr().cast::<u8>(), size_of::<BlockKey>())
        };
        assert!(left.windows(2).all(|pair| !bytes.windows(2).any(|given| given == pair)));
    }
}

/// Without an equality or a hash no one compares secrets byte by byte, without `Display` no one prints them, and no conversion
/// lends their bytes: where a type had one, `answer` would have two candidates here, and this file would not compile.
#[test]
fn secrets_have_no_equality() {
    trait Without<Case> {
        fn answer() {}
    }
    struct Equality;
    struct Text;
    struct Digest;
    struct Bytes;
    struct Target;
    impl<T: ?Sized> Without<()> for T {}
    impl<T: PartialEq> Without<Equality> for T {}
    impl<T: std::fmt::Display> Without<Text> for T {}
    impl<T: std::hash::Hash> Without<Digest> for T {}
    impl<T: AsRef<[u8]>> Without<Bytes> for T {}
    impl<T: std::ops::Deref> Without<Target> for T {}
    <Des as Without<_>>::answer();
    <TdesEde2 as Without<_>>::answer();
    <TdesEde3 as Without<_>>::answer();
    <Cipher as Without<_>>::answer();
    <CbcMacDes as Without<_>>::answer();
    <CbcMacTdesEde2 as Without<_>>::answer();
    <CbcMacTdesEde3 as Without<_>>::answer();
    <RetailMacDes as Without<_>>::answer();
    <CmacTdesEde2 as Without<_>>::answer();
    <CmacTdesEde3 as Without<_>>::answer();
    <BlockKey as Without<_>>::answer();
    <Pin as Without<_>>::answer();
    <Terminal as Without<_>>::answer();
    <Stream as Without<_>>::answer();
    <Ctr<Des> as Without<_>>::answer();
    <Ofb<Des> as Without<_>>::answer();
    <CfbEncryptor<Des> as Without<_>>::answer();
    <CfbDecryptor<Des> as Without<_>>::answer();
}

/// The Rust files below a folder of the crate.
fn sources(folder: &Path) -> Vec<PathBuf> {
    let entries = fs::read_dir(folder).unwrap().map(|entry| entry.unwrap().path());
    entries.flat_map(|path| if path.is_dir() { sources(&path) } else { vec![path] }).collect()
}

/// A variant more breaks no caller, but of what has no third one.
#[test]
fn enums_may_grow() {
    let (mut count, closed) = (0, ["MessageDirection"]);
    for file in sources(&Path::new(env!("CARGO_MANIFEST_DIR")).join("src")) {
        let text = fs::read_to_string(&file).unwrap();
        for (before, after) in text.match_indices("\npub enum ").map(|(at, _)| text.split_at(at)) {
            let name = after.split_whitespace().nth(2).unwrap();
            let mut attributes = before.lines().rev().take_while(|line| line.starts_with("#["));
            assert_ne!(attributes.any(|line| line == "#[non_exhaustive]"), closed.contains(&name), "{name}");
            count += 1;
        }
    }
    assert!(count > closed.len());
}

/// Those that no known call has, or has in words that other errors have too.
#[test]
fn errors_are_sentences() {
    let errors: [(&(dyn Error + Send + Sync), &str); 29] = [
        (&InvalidLength, "the key does not have a length that the call takes"),
        (&DataError::NotBlocks, "the data are not whole blocks of 8 bytes"),
        (&DataError::LengthsDiffer, "input and output differ in length"),
        (&CountsDiffer, "the numbers of elements do not agree: a count, or a sum of counts, and a length"),
        (&KeyTestError::InvalidLength, "the key does not have 8, 16 or 24 bytes"),
        (&MacError, "the tag is not that of the message"),
        (&BufferTooSmall, "the buffer is too small for the padding"),
        (&UnpadError::NotBlocks, "the data are not whole blocks of 8 bytes"),
        (&PinError::AccountLength, "the account number does not have 8 to 19 digits"),
        (&CvvError::AccountLength, "the account number does not have 12 to 19 digits"),
        (&VerificationError::AccountLength, "the account number does not have 12 to 19 digits"),
        (&VerificationError::KeyLength, "the key does not have 8, 16 or 24 bytes"),
        (&TranslationError::KeyLength, "a key does not have 8, 16 or 24 bytes"),
        (&TranslationError::AccountLength, "the account number does not have 8 to 19 digits"),
        (&EmvError::AccountLength, "the account number does not have 8 to 19 digits"),
        (&DeriveError::KeyLength, "the key is longer than 2^32 - 1 digests"),
        (&OpenError::NotBlocks, "what is encrypted is not whole blocks of 8 bytes"),
        (&OpenError::BufferTooSmall, "the buffer is too small for what is opened"),
        (&BitsError::TooFew, "the data have fewer bits than that"),
        (&BitsError::Segment, "the stream does not have segments of 1 bit"),
        (&WrapError::KeyLength, "the key does not have a length that is wrapped"),
        (&WrapError::BufferTooSmall, "the buffer is too small for the wrapped key"),
        (&UnwrapError::BufferTooSmall, "the buffer is too small for the key"),
        (&ColumnError::BufferTooSmall, "the buffer is too small for the texts"),
        (&ColumnError::NoIteration, "the number of iterations is 0"),
        (&PbeError::SaltLength, "the salt does not have 8 bytes"),
        (&ValueError::NotBase64, "the value is not Base64"),
        (&ValueError::SaltCut, "the bytes end within the salt"),
        (&ValueError::NotBlocks, "what is encrypted is not whole blocks of 8 bytes"),
    ];
    for (error, sentence) in errors {
        assert_eq!(error.to_string(), sentence);
    }
}
