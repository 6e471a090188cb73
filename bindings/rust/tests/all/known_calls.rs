//! The calls of bindings/known_calls.txt, which says what its lines are, but for those that the types of the arguments leave no place for.

use crate::common::{bytes_of, known_calls};
use cukvashe_des::columns::Pbe;
use cukvashe_des::key_wrap::{cms_unwrap, cms_wrap, tkw_unwrap, tkw_wrap, UnwrapError};
use cukvashe_des::padding::{pad, unpad, Method};
use cukvashe_des::passwords::Derivation;
use cukvashe_des::payment::*;
use cukvashe_des::stream::{Mode, Segment};
use cukvashe_des::{equal_but_parity, weak_key_test, with_odd_parity};
use cukvashe_des::{Block, BlockCipher, Cipher, Des, KeyTestError, TdesEde2, TdesEde3};
use std::collections::HashMap;
use std::error::Error;

/// What a word says: of a table, a header or a list the texts in it, of true, null or a class itself.
#[derive(Clone, Debug)]
enum Value {
    Bytes(Vec<u8>),
    Text(String),
    Number(i128),
    Texts(String, Vec<String>),
    Other(String),
}
use Value::*;

impl Value {
    /// Its bytes, those of texts one after the other.
    fn bytes(&self) -> &[u8] {
        match self {
            Bytes(bytes) => bytes,
            Text(text) | Other(text) => text.as_bytes(),
            value => panic!("{value:?}"),
        }
    }

    fn answer(&self) -> Vec<u8> {
        match self {
            Texts(_, texts) => texts.join("\0").into(),
            value => value.bytes().into(),
        }
    }
}

/// What a call answers, in bytes, or the sentence of its error.
type Made = Result<Vec<u8>, String>;

/// What a call may answer.
trait Answer {
    fn made(self) -> Made;
}

macro_rules! answers {
    ($($type:ty: $it:ident => $bytes:expr),* $(,)?) => {
        $(impl Answer for $type {
            fn made(self) -> Made {
                let $it = self;
                Ok($bytes.into())
            }
        })*
    };
}

answers!(
    (): _it => "right",
    bool: it => it.to_string(),
    &[u8]: it => it,
    &mut [u8]: it => &*it,
    Vec<u8>: it => it,
    Pin: it => it.text(),
    DecimalTable: _it => "right",
    Option<[u8; 10]>: it => it.map_or("null".into(), Vec::from),
    key_blocks::Header: it => fields_of(it),
    (key_blocks::Header, BlockKey): it => [&fields_of(it.0), it.1.bytes()].concat(),
);

impl<const SIZE: usize> Answer for [u8; SIZE] {
    fn made(self) -> Made {
        Ok(self.into())
    }
}

impl<T: Answer, E: Error + Send + Sync> Answer for Result<T, E> {
    fn made(self) -> Made {
        self.map_err(|error| error.to_string())?.made()
    }
}

fn fields_of(header: key_blocks::Header) -> Vec<u8> {
    let key_blocks::Header { version, usage, algorithm, mode, key_version, exportability } = header;
    [&[version][..], &usage, &[algorithm], &[mode], &key_version, &[exportability]].join(&0)
}

/// The texts in a word, whose characters may be written by their codes.
fn texts_of(word: &str) -> Vec<String> {
    let (mut made, mut units, mut letters) = (Vec::new(), None::<Vec<u16>>, word.chars());
    while let Some(letter) = letters.next() {
        match (&mut units, letter) {
            (None, '"') => units = Some(Vec::new()),
            (None, _) => {}
            (Some(text), '"') => {
                made.push(String::from_utf16(text).unwrap());
                units = None;
            }
            (Some(text), '\\') => text.push(match letters.next().unwrap() {
                'u' => u16::from_str_radix(&letters.by_ref().take(4).collect::<String>(), 16).unwrap(),
                'n' => 10,
                letter => panic!("\\{letter}"),
            }),
            (Some(text), letter) => text.extend(letter.encode_utf16(&mut [0; 2]).iter()),
        }
    }
    made
}

/// The values of words, by what the names before them say.
struct Names(HashMap<String, Value>);

impl Names {
    fn value(&self, word: &str) -> Value {
        if let Some((kind, digits)) =
            word.split_once(':').filter(|(kind, _)| kind.chars().all(|it| it == '_' || it.is_lowercase()))
        {
            return Texts(kind.into(), texts_of(digits));
        }
        if word.starts_with('[') {
            return Texts("list".into(), texts_of(word));
        }
        if let Ok(number) = word.parse() {
            return Number(number);
        }
        let end = match word.strip_prefix('"') {
            Some(text) => text.find('"').unwrap() + 2,
            None => word.find(['*', '@', '<']).unwrap_or(word.len()),
        };
        let (base, rest) = word.split_at(end);
        let is_hexadecimal = base.starts_with('x') && base[1..].chars().all(|it| it.is_ascii_hexdigit());
        let mut value = match self.0.get(base) {
            Some(value) => value.clone(),
            None if is_hexadecimal => Bytes(bytes_of(&base[1..])),
            None if base.starts_with('"') => Text(texts_of(base).remove(0)),
            None => Other(base.into()),
        };
        let (before, cut) = rest.split_once('<').unwrap_or((rest, ""));
        let (times, change) = before.split_once('@').unwrap_or((before, ""));
        if let Some(times) = times.strip_prefix('*').map(|times| times.parse().unwrap()) {
            value = match value {
                Bytes(bytes) => Bytes(bytes.repeat(times)),
                Text(text) => Text(text.repeat(times)),
                value => panic!("{value:?}"),
            };
        }
        if let Some((place, changed)) = change.split_once('=') {
            let place: usize = place.parse().unwrap();
            match &mut value {
                Bytes(bytes) => bytes[place] = bytes_of(changed)[0],
                Text(text) => text.replace_range(place..=place, &texts_of(&format!("\"{changed}\""))[0]),
                value => panic!("{value:?}"),
            }
        }
        match (&mut value, cut.parse()) {
            (Bytes(bytes), Ok(length)) => bytes.truncate(length),
            (Text(text), Ok(length)) => text.truncate(length),
            _ => {}
        }
        value
    }
}

/// The arguments of a call, by their places and names.
struct Given {
    places: Vec<Value>,
    named: HashMap<String, Value>,
}

/// What a call takes in a place, if there is a place for it.
trait Taken<'a>: Sized {
    fn taken(value: &'a Value) -> Option<Self>;
}

macro_rules! taken {
    ($($type:ty: $value:ident => $taken:expr),* $(,)?) => {
        $(impl<'a> Taken<'a> for $type {
            fn taken($value: &'a Value) -> Option<Self> {
                $taken
            }
        })*
    };
}

fn number<T: TryFrom<i128>>(value: &Value) -> Option<T> {
    match value {
        Number(number) => (*number).try_into().ok(),
        _ => None,
    }
}

taken!(
    &'a [u8]: value => Some(value.bytes()),
    u8: value => number(value),
    u32: value => number(value),
    usize: value => number(value),
    Pin: value => Pin::new(value.bytes()).ok(),
    DecimalTable: value => match value {
        Texts(kind, texts) if kind == "table" => DecimalTable::new(texts[0].as_bytes()).ok(),
        Texts(_, texts) => DecimalTable::of_any_variety(texts[0].as_bytes()).ok(),
        _ => None,
    },
    Method: value => match value.bytes() {
        b"pkcs7" => Some(Method::Pkcs7),
        b"iso7816" => Some(Method::Iso7816),
        _ => None,
    },
    key_blocks::Header: value => {
        let Texts(_, fields) = value else { panic!("{value:?}") };
        let &[version, usage, algorithm, mode, key_version, exportability] = &[0, 1, 2, 3, 4, 5].map(|at| fields[at].as_bytes());
        let one = |field: &[u8]| <[u8; 1]>::try_from(field).ok().map(|[byte]| byte);
        Some(key_blocks::Header {
            version: one(version)?,
            usage: usage.try_into().ok()?,
            algorithm: one(algorithm)?,
            mode: one(mode)?,
            key_version: key_version.try_into().ok()?,
            exportability: one(exportability)?,
        })
    },
);

impl<'a, const SIZE: usize> Taken<'a> for &'a [u8; SIZE] {
    fn taken(value: &'a Value) -> Option<Self> {
        value.bytes().try_into().ok()
    }
}

impl Given {
    fn at<'a, T: Taken<'a>>(&'a self, at: usize) -> Option<T> {
        T::taken(&self.places[at])
    }

    fn named<'a, T: Taken<'a>>(&'a self, name: &str) -> Option<T> {
        T::taken(self.named.get(name)?)
    }

    /// Bytes that may be left out.
    fn last(&self, at: usize) -> &[u8] {
        self.places.get(at).map_or(&[], Value::bytes)
    }

    fn message(&self) -> MessageDirection {
        match self.last(1) {
            b"true" => MessageDirection::Response,
            _ => MessageDirection::Request,
        }
    }
}

type Combine<const SIZE: usize> = fn(&[u8; SIZE], &[u8; SIZE], &[[u8; SIZE]]) -> Result<[u8; SIZE], KeyTestError>;

fn of_size<const SIZE: usize>(name: &str, given: &Given, combine: Combine<SIZE>) -> Option<Made> {
    let first: &[u8; SIZE] = given.at(0)?;
    if name == "with_odd_parity" {
        return Some(with_odd_parity(first).made());
    }
    let others: Option<Vec<[u8; SIZE]>> =
        (1..given.places.len()).map(|at| given.at::<&[u8; SIZE]>(at).copied()).collect();
    let others = others?;
    Some(if name == "combine" {
        combine(first, &others[0], &others[1..]).made()
    } else {
        equal_but_parity(first, &others[0]).made()
    })
}

/// What a call makes, where its arguments have a place.
fn made(name: &str, given: &Given) -> Option<Made> {
    use {emv::*, key_blocks::*, pin_blocks::*, pin_verification::*, translation::*};
    let pin = |at| Pin::new(given.last(at));
    let (incoming, outgoing) = (|| given.named("incoming_key"), || given.named("outgoing_key"));
    let from = || match given.at(0)? {
        0_u8 => Some(Incoming::Format0),
        1 => Some(Incoming::Format1),
        3 => Some(Incoming::Format3),
        _ => None,
    };
    Some(match name {
        // Calls like those of `cukvashe_des.h`: made of it by `bindings/describe`.
        "key_check_value" => key_check_value(given.at(0)?).made(),
        "short_key_check_value" => short_key_check_value(given.at(0)?).made(),
        "dukpt_initial_key" => initial_key(given.at(0)?, given.at(1)?).made(),
        "dukpt_transaction_key" => transaction_key(given.at(0)?, given.at(1)?).made(),
        "dukpt_pin_key" => pin_key(given.at(0)?).made(),
        "dukpt_mac_key" => mac_key(given.at(0)?, given.message()).made(),
        "dukpt_data_key" => data_key(given.at(0)?, given.message()).made(),
        "dukpt_data_variant" => data_variant(given.at(0)?, given.message()).made(),
        "cvv" => cvv(given.at(0)?, given.at(1)?, given.at(2)?, given.at(3)?).made(),
        "emv_card_key" => card_key(given.at(0)?, given.at(1)?, given.at(2)?).made(),
        "emv_card_key_b" => card_key_b(given.at(0)?, given.at(1)?, given.at(2)?).made(),
        "emv_application_key" => application_key(given.at(0)?, given.at(1)?).made(),
        "emv_session_key" => session_key(given.at(0)?, given.at(1)?).made(),
        "emv_application_cryptogram" => application_cryptogram(given.at(0)?, given.last(1)).made(),
        "emv_response_1" => response_1(given.at(0)?, given.at(1)?, given.at(2)?).made(),
        "emv_response_2" => response_2(given.at(0)?, given.at(1)?, given.at(2)?, given.last(3)).made(),
        // This ends what bindings/describe made.
        "is_weak_key" => match weak_key_test(given.at(0)?) {
            Err(KeyTestError::WeakKey) => true.made(),
            tested => tested.map(|()| false).made(),
        },
        "check_value" => match given.last(0) {
            b"Des" => Des::check_value(given.at(1)?).made(),
            b"TdesEde2" => TdesEde2::check_value(given.at(1)?).made(),
            _ => TdesEde3::check_value(given.at(1)?).made(),
        },
        "with_odd_parity" | "equal_but_parity" | "combine" => match given.last(0).len() {
            8 => of_size(name, given, combine_8)?,
            16 => of_size(name, given, combine_16)?,
            _ => of_size(name, given, combine_24)?,
        },
        "dukpt_transaction_keys_from_base" => {
            let serials: Vec<[u8; 10]> =
                given.last(1).chunks(10).map(|it| it.try_into().ok()).collect::<Option<_>>()?;
            let mut keys = vec![[0; 16]; serials.len()];
            transaction_keys_from_base(given.at(0)?, &serials, &mut keys).map(|()| keys.concat()).made()
        }
        "dukpt_next_serial" => next_serial(given.at(0)?).made(),
        "dukpt_is_usable" => is_usable(given.at(0)?).made(),
        "pin_encode_0" => pin(0).and_then(|pin| encode_format_0(&pin, given.last(1))).made(),
        "pin_encode_1" => {
            let digits = given.at(1)?;
            pin(0).and_then(|pin| encode_format_1(&pin, digits)).made()
        }
        "pin_encode_2" => pin(0).map(|pin| encode_format_2(&pin)).made(),
        "pin_encode_3" => {
            let fill = given.at(2)?;
            pin(0).and_then(|pin| encode_format_3(&pin, given.last(1), fill)).made()
        }
        "pin_decode_0" => decode_format_0(given.at(0)?, given.at(1)?).made(),
        "pin_decode_1" => decode_format_1(given.at(0)?).made(),
        "pin_decode_2" => decode_format_2(given.at(0)?).made(),
        "pin_decode_3" => decode_format_3(given.at(0)?, given.at(1)?).made(),
        "pvv" => pvv(given.at(0)?, given.at(1)?, given.at(2)?, &given.at(3)?).made(),
        "pvv_verify" => verify_pvv(given.at(0)?, given.at(1)?, given.at(2)?, &given.at(3)?, given.at(4)?).made(),
        "natural_pin" => natural_pin(given.at(0)?, &given.at(1)?, given.at(2)?, given.at(3)?).made(),
        "pin_offset" => pin_offset(given.at(0)?, &given.at(1)?, given.at(2)?, &given.at(3)?).made(),
        "pin_offset_verify" => {
            verify_offset(given.at(0)?, &given.at(1)?, given.at(2)?, &given.at(3)?, &given.at(4)?).made()
        }
        "DecimalTable" => DecimalTable::new(given.at(0)?).made(),
        "DecimalTable.of_any_variety" => DecimalTable::of_any_variety(given.at(0)?).made(),
        "pin_translate_to_0" => {
            translate(incoming()?, from()?, outgoing()?, Outgoing::Format0, given.at(1)?, given.at(2)?).made()
        }
        "pin_translate_to_1" => translate_format_1(incoming()?, outgoing()?, given.at(0)?).made(),
        "pin_translate_to_3" => {
            let to = Outgoing::Format3 { fill: *given.at::<&[u8; 10]>(2)? };
            translate(incoming()?, from()?, outgoing()?, to, given.at(1)?, given.at(3)?).made()
        }
        "unwrap_key_block" => unwrap(given.at(0)?, given.at(1)?).made(),
        "key_block_header" => header(given.at(0)?).made(),
        "key_block_context" => key_context(given.at(0)?).map(|context| [context]).made(),
        "key_block_optional_blocks" => optional_blocks(given.at(0)?).made(),
        "wrap_key_block" => wrapped(given)?,
        "pbkdf2" => {
            let derivation = derivation(given.last(0), Some(given.at(3)?))?;
            written(given.at(4)?, |key| derivation.write_bytes(given.last(1), given.last(2), key).map(|()| key.len()))?
        }
        "bytes_to_key" => {
            let derivation = derivation(given.last(0), None)?;
            written(given.at(3)?, |key| derivation.write_bytes(given.last(1), given.last(2), key).map(|()| key.len()))?
        }
        "pbe_key" => {
            let by = match given.last(0) {
                b"PBEWithMD5AndDES" => Pbe::Md5AndDes,
                b"PBEWithSHA1AndDES" => Pbe::Sha1AndDes,
                b"PBEWithMD5AndTripleDES" => Pbe::Md5AndTripleDes,
                b"PBEWithSHA1AndDESede" => Pbe::Sha1AndDesEde,
                b"pbeWithSHAAnd2-KeyTripleDES-CBC" => Pbe::ShaAnd2KeyTripleDes,
                _ => return None,
            };
            let count = given.at(3)?;
            written(given.at(4)?, |key| by.write_bytes(count, given.last(1), given.last(2), key).map(|()| key.len()))?
        }
        "open_salted" => {
            let iterations = given.named.get("iterations").map(|count| number(count).ok_or(()));
            let derivation = derivation(given.named("hash_name").unwrap_or(b"sha256"), iterations.transpose().ok()?)?;
            written(100, |plain| match given.last(0) {
                b"Des" => Des::open_salted(derivation, given.last(1), given.last(2), plain),
                b"TdesEde2" => TdesEde2::open_salted(derivation, given.last(1), given.last(2), plain),
                _ => TdesEde3::open_salted(derivation, given.last(1), given.last(2), plain),
            })?
        }
        "cms_wrap_key" => {
            let iv: &Block = given.named("iv")?;
            written(200, |wrapped| cms_wrap(given.last(0), iv, given.last(1), wrapped))?
        }
        "cms_unwrap_key" => {
            unwrapped(given.last(1).len().saturating_sub(16), |key| cms_unwrap(given.last(0), given.last(1), key))?
        }
        "tkw_wrap_key" => written(200, |wrapped| tkw_wrap(given.last(0), given.last(1), wrapped))?,
        "tkw_unwrap_key" => {
            unwrapped(given.last(1).len().saturating_sub(4), |key| tkw_unwrap(given.last(0), given.last(1), key))?
        }
        "pad" => pad(&mut [given.last(0), &[0x77; 20]].concat(), given.last(0).len(), given.at(1)?).made(),
        "unpad" => unpad(given.at(0)?, given.at(1)?).made(),
        "DukptTerminal" | "DukptTerminal.from_state" | "macs" | "macs_each" | "check_values" | "wrong_tags" => {
            return None
        }
        "encrypt_each" | "decrypt_each" => return None,
        _ if name.contains("crypt_") => of_a_cipher(name, given)?,
        _ if name.contains("Des") || name.contains("Tdes") => return None,
        _ => panic!("{name}"),
    })
}

/// What a call of a cipher makes, whose key comes first.
fn of_a_cipher(name: &str, given: &Given) -> Option<Made> {
    let cipher = Cipher::new_from_slice(given.last(0)).unwrap();
    let mut data = given.last(1).to_vec();
    let iv: &Block = given.named("iv").or_else(|| given.named("counter"))?;
    let mode = match (name.rsplit_once('_')?.1, given.named::<u32>("segment_size")) {
        ("ctr", None) => Mode::Ctr,
        ("ofb", None) => Mode::Ofb,
        ("cfb", Some(1)) => Mode::Cfb(Segment::Bits1),
        ("cfb", Some(8)) => Mode::Cfb(Segment::Bits8),
        ("cfb", Some(16)) => Mode::Cfb(Segment::Bits16),
        ("cfb", Some(24)) => Mode::Cfb(Segment::Bits24),
        ("cfb", Some(32)) => Mode::Cfb(Segment::Bits32),
        ("cfb", Some(40)) => Mode::Cfb(Segment::Bits40),
        ("cfb", Some(48)) => Mode::Cfb(Segment::Bits48),
        ("cfb", Some(56)) => Mode::Cfb(Segment::Bits56),
        ("cfb", Some(64)) => Mode::Cfb(Segment::Bits64),
        _ => return None,
    };
    if name.contains("encrypt") {
        cipher.encrypt_mode(mode, iv, &mut data);
    } else {
        cipher.decrypt_mode(mode, iv, &mut data);
    }
    Some(data.made())
}

/// What is written into a buffer that is longer, or long enough, of which nothing else is; of a short one no error is expected.
fn written<E: Error + Send + Sync>(
    capacity: usize,
    writes: impl FnOnce(&mut [u8]) -> Result<usize, E>,
) -> Option<Made> {
    let mut buffer = vec![0x77; Some(capacity).filter(|capacity| (1..=300).contains(capacity))?];
    let made = writes(&mut buffer);
    assert!(buffer[*made.as_ref().unwrap_or(&0)..].iter().all(|byte| *byte == 0x77));
    Some(made.map(|count| buffer[..count].to_vec()).made())
}

/// The same of a key of `size` bytes: zeros stand where a refused one would.
fn unwrapped(size: usize, unwrap: impl FnOnce(&mut [u8]) -> Result<usize, UnwrapError>) -> Option<Made> {
    written(200, |key| {
        let made = unwrap(key);
        if made == Err(UnwrapError::WrappedKey) {
            assert!(key[..size].iter().all(|byte| *byte == 0));
            key[..size].fill(0x77);
        }
        made
    })
}

fn derivation(hash: &[u8], iterations: Option<u32>) -> Option<Derivation> {
    match (hash, iterations) {
        (b"md5", None) => Some(Derivation::Md5),
        (b"sha1", None) => Some(Derivation::Sha1),
        (b"sha256", None) => Some(Derivation::Sha256),
        (b"sha1", Some(count)) => Some(Derivation::Pbkdf2Sha1(count)),
        (b"sha256", Some(count)) => Some(Derivation::Pbkdf2Sha256(count)),
        _ => None,
    }
}

fn optional_blocks(block: &[u8]) -> Result<Vec<u8>, KeyBlockError> {
    let mut found = Vec::new();
    while let Some(block) = key_blocks::optional_block(block, found.len() / 2)? {
        found.extend([block.name.to_vec(), block.content.to_vec()]);
    }
    assert_eq!(key_blocks::optional_block(block, usize::MAX), Ok(None));
    Ok(found.join(&0))
}

/// A key block of optional blocks, of which the crate puts the one that fills behind the others; the padding may be left out.
fn wrapped(given: &Given) -> Option<Made> {
    let texts = match given.named.get("optional") {
        Some(Texts(_, texts)) => &texts[..],
        _ => &[],
    };
    let texts = if texts.len() == 4 && texts[2..] == ["PB", "00"] { &texts[..2] } else { texts };
    let of = |pair: &'_ [String]| Some((pair[0].as_bytes().try_into().ok()?, pair[1].clone().into_bytes()));
    let pairs: Vec<([u8; 2], Vec<u8>)> = texts.chunks(2).map(of).collect::<Option<_>>()?;
    let optional: Vec<_> =
        pairs.iter().map(|(name, content)| key_blocks::OptionalBlock { name: *name, content }).collect();
    let (key, header) = (given.last(2), given.at(1)?);
    let padding = vec![0; 30_usize.saturating_sub(key.len())];
    written(300, |text| {
        key_blocks::wrap(given.last(0), &header, &optional, key, given.named("padding").unwrap_or(&padding), text)
    })
}

/// The beginnings of sentences that are others here, since the crate's errors are of fewer calls and tell no length.
const OTHERS: [(&str, &[&str]); 10] = [
    (
        "a key has ",
        &["the key does not have 8, 16 or 24 bytes", "a key does not have 8, 16 or 24 bytes", INVALID_LENGTH],
    ),
    ("the account number does not have ", &["the account number does not have 8 to 19 digits", TO_19]),
    ("the weak key test refuses", &["the key is weak, or two of its parts are one key"]),
    ("the version of the key block", &["the version of the key block is not one that the call takes"]),
    ("the key does not have a length", &["the key does not have 8, 16 or 24 bytes", INVALID_LENGTH]),
    ("the number of iterations is not", &["the number of iterations is 0"]),
    ("the length is not a multiple", &["the key does not have a length that is wrapped"]),
    ("the salt of bytes_to_key", &["the salt does not have 0 or 8 bytes"]),
    ("the bytes end within the salt", &["the bytes end within the salt"]),
    ("by this algorithm a salt has", &["the salt does not have 8 bytes"]),
];
const INVALID_LENGTH: &str = "the key does not have a length that the call takes";
const TO_19: &str = "the account number does not have 12 to 19 digits";

/// Whether an error says what is expected, in its own words.
fn says(sentence: &str, expected: &str) -> bool {
    let is_of_blocks =
        expected.ends_with("bytes are not whole blocks of 8") && sentence.ends_with("not whole blocks of 8 bytes");
    let mut others = OTHERS.iter().filter(|(begin, _)| expected.starts_with(begin));
    sentence == expected || is_of_blocks || others.any(|(_, others)| others.contains(&sentence))
}

#[test]
fn known_calls_answer() {
    let (mut names, mut said) = (Names(HashMap::new()), 0);
    known_calls(|call, outcome| {
        let Some((name, words)) = call.split_first() else {
            names.0.insert(outcome[0].clone(), names.value(&outcome[1]));
            return;
        };
        let mut given = Given { places: vec![], named: HashMap::new() };
        for word in words {
            match word.split_once('=').filter(|(name, _)| name.chars().all(|it| it == '_' || it.is_lowercase())) {
                Some((name, word)) => _ = given.named.insert(name.into(), names.value(word)),
                None => given.places.push(names.value(word)),
            }
        }
        // A text of other characters is another one in bytes.
        if given.places.iter().any(|value| matches!(value, Text(text) if !text.is_ascii())) {
            return;
        }
        let Some(made) = made(name, &given) else { return };
        said += 1;
        if outcome[0] == "!" {
            let sentence = made.expect_err(&call.join(" "));
            assert!(says(&sentence, &outcome[2..].join(" ")), "{call:?}: {sentence}, {outcome:?}");
        } else {
            let wanted: Vec<u8> = outcome[1..].iter().flat_map(|word| names.value(word).answer()).collect();
            assert_eq!(made, Ok(wanted), "{call:?}");
        }
    });
    assert!(said > 1950, "{said}");
}
