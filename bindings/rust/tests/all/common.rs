//! Known answers that the tests share.

use cukvashe_des::Block;
use std::fs;

pub const KEY: [u8; 24] = [
    0x01, 0x23, 0x45, 0x67, 0x89, 0xab, 0xcd, 0xef, 0x23, 0x45, 0x67, 0x89, 0xab, 0xcd, 0xef, 0x01, 0x45, 0x67, 0x89,
    0xab, 0xcd, 0xef, 0x01, 0x23,
];

pub const TEXT: &[u8; 24] = b"The qufck brown fox jump";

/// Lists shorter than a batch of either width, whole ones, and longer ones, in blocks.
pub const COUNTS: [usize; 8] = [0, 1, 2, 127, 128, 129, 300, 600];

/// Every length that a caller might take for a right one.
pub const LENGTHS: std::ops::Range<usize> = 0..34;

/// The bytes of a text of hexadecimal digits.
pub fn bytes_of(digits: &str) -> Vec<u8> {
    (0..digits.len()).step_by(2).map(|at| u8::from_str_radix(&digits[at..at + 2], 16).unwrap()).collect()
}

pub fn blocks_of(bytes: &[u8]) -> Vec<Block> {
    bytes.chunks_exact(8).map(|block| block.try_into().unwrap()).collect()
}

/// The lines of a file of known answers, without comments.
fn lines_of(place: &str) -> Vec<String> {
    let text = fs::read_to_string(format!("{}/{place}", env!("CARGO_MANIFEST_DIR"))).unwrap();
    text.lines().filter(|line| !line.trim().is_empty() && !line.starts_with('#')).map(String::from).collect()
}

/// A list of blocks, its ciphertext, and of CBC the vector.
pub struct Ciphertext {
    pub name: String,
    pub key: Vec<u8>,
    pub plain: Vec<u8>,
    pub answer: Vec<u8>,
    pub iv: Option<Block>,
}

/// The lists of known_answers.txt of one name.
pub fn ciphertexts(name: &str) -> Vec<Ciphertext> {
    let mut lists: Vec<Ciphertext> = Vec::new();
    for line in lines_of("../../crates/des_tests/known_answers.txt") {
        let words: Vec<&str> = line.split_whitespace().collect();
        if line.starts_with(' ') {
            let last = lists.last_mut().unwrap();
            last.plain.extend(bytes_of(words[0]));
            last.answer.extend(bytes_of(words[1]));
        } else {
            lists.push(Ciphertext {
                name: words[0].into(),
                key: bytes_of(words[1]),
                plain: bytes_of(words[2]),
                answer: bytes_of(words[3]),
                iv: words.get(4).map(|iv| bytes_of(iv).try_into().unwrap()),
            });
        }
    }
    lists.retain(|list| list.name == name);
    assert!(!lists.is_empty());
    lists
}

/// A message, and its tag under a key.
pub struct Tag {
    pub key: Vec<u8>,
    pub message: Vec<u8>,
    pub tag: Block,
}

/// The lines of known_macs.txt of one MAC and padding method.
pub fn tags(name: &str, method: &str) -> Vec<Tag> {
    let lines = lines_of("../known_macs.txt");
    let words = lines.iter().map(|line| line.split_whitespace().collect::<Vec<_>>());
    let tags: Vec<Tag> = words
        .filter(|words| words[..2] == [name, method])
        .map(|words| Tag {
            key: bytes_of(words[2]),
            message: (0..words[3].parse().unwrap()).map(|i: usize| (i % 251) as u8).collect(),
            tag: bytes_of(words[4]).try_into().unwrap(),
        })
        .collect();
    assert!(COUNTS.iter().all(|count| tags.iter().any(|tag| tag.message.len() == 8 * count)));
    tags
}

/// The words of a line, between which stand blanks that are in no text.
fn words_of(line: &str) -> Vec<String> {
    let (mut words, mut is_text, mut is_escaped) = (vec![String::new()], false, false);
    for letter in line.chars() {
        if letter == ' ' && !is_text {
            words.push(String::new());
            continue;
        }
        is_text ^= letter == '"' && !is_escaped;
        is_escaped = letter == '\\' && !is_escaped;
        words.last_mut().unwrap().push(letter);
    }
    words.retain(|word| !word.is_empty());
    words
}

/// The words that a line beginning with `for` says.
fn each_of(words: &[String]) -> Vec<String> {
    let [kind, but, lengths @ ..] = words else { return words.to_vec() };
    if but != "but" {
        return words.to_vec();
    }
    let number = |digits: &str| digits.parse::<usize>().unwrap();
    let but = |length| {
        lengths.iter().any(|word| {
            let (first, last) = word.split_once('-').unwrap_or((word, word));
            (number(first)..=number(last)).contains(&length)
        })
    };
    let word = if kind == "bytes" { "x5a*" } else { "\"1\"*" };
    LENGTHS.filter(|&length| !but(length)).map(|length| format!("{word}{length}")).collect()
}

/// Gives the words of each call of known_calls.txt, and those of the line that says what comes of it; and for a name no call, the name and its
/// word.
pub fn known_calls(mut give: impl FnMut(&[String], &[String])) {
    let (mut outcome, mut each) = (vec![], vec![]);
    for line in lines_of("../known_calls.txt") {
        let words = words_of(&line);
        if ["=", "!"].contains(&&*words[0]) {
            outcome = words;
            continue;
        }
        for call in line.split(" ; ") {
            let words = words_of(call);
            match words.iter().position(|word| word == "=") {
                _ if words[0] == "for" => each = each_of(&words[1..]),
                Some(_) if is_name(&words[0]) => give(&[], &[words[0].clone(), words[2].clone()]),
                Some(at) => give(&words[..at], &words[at..]),
                None if call.contains('?') => {
                    each.iter().for_each(|word| give(&words_of(&call.replace('?', word)), &outcome))
                }
                None => give(&words, &outcome),
            }
        }
    }
}

fn is_name(word: &str) -> bool {
    word.chars().all(|letter| letter.is_uppercase() || letter == '_')
}
