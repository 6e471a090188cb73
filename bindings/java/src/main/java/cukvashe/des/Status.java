package cukvashe.des;

/** Why a call refuses what it is given: the statuses of the header for C, made of it by bindings/describe. */
public enum Status {
  /** Success. */
  OK("success"),
  /** The key does not have a length that the call takes. */
  KEY_LENGTH("the key does not have a length that the call takes"),
  /** The length is not a multiple of 8 bytes. */
  BLOCKS("the length is not a multiple of 8 bytes"),
  /** The key is weak, or two of its parts are one key. */
  WEAK_KEY("the key is weak, or two of its parts are one key"),
  /** The padding method is not one that the call takes. */
  PADDING_METHOD("the padding method is not one that the call takes"),
  /** The tag is not that of the message. */
  TAG("the tag is not that of the message"),
  /** There is no next key serial number. */
  NO_SERIAL("there is no next key serial number"),
  /** The first digit of the PIN block is not that of the format. */
  FORMAT("the first digit of the PIN block is not that of the format"),
  /** The PIN does not have 4 to 12 digits. */
  PIN_LENGTH("the PIN does not have 4 to 12 digits"),
  /** A character of the PIN is not a digit. */
  PIN_DIGIT("a character of the PIN is not a digit"),
  /** The account number does not have 8 to 19 digits, for a PVV or a CVV 12 to 19. */
  ACCOUNT_LENGTH("the account number does not have 8 to 19 digits, for a PVV or a CVV 12 to 19"),
  /** A character of the account number is not a digit. */
  ACCOUNT_DIGIT("a character of the account number is not a digit"),
  /** A fill digit is not one that the format allows. */
  FILL("a fill digit is not one that the format allows"),
  /** The expiry date does not have four digits. */
  EXPIRY_LENGTH("the expiry date does not have four digits"),
  /** A character of the expiry date is not a digit. */
  EXPIRY_DIGIT("a character of the expiry date is not a digit"),
  /** The service code does not have three digits. */
  SERVICE_LENGTH("the service code does not have three digits"),
  /** A character of the service code is not a digit. */
  SERVICE_DIGIT("a character of the service code is not a digit"),
  /** The data do not end with the padding. */
  PADDING("the data do not end with the padding"),
  /** The buffer is too small for all that the call would write. */
  CAPACITY("the buffer is too small for all that the call would write"),
  /** The numbers of elements do not agree: a count, or a sum of counts, and a length. */
  COUNTS("the numbers of elements do not agree: a count, or a sum of counts, and a length"),
  /** The index of the key pair is not 1 to 6. */
  KEY_INDEX("the index of the key pair is not 1 to 6"),
  /** The decimalization table does not have sixteen digits. */
  TABLE_LENGTH("the decimalization table does not have sixteen digits"),
  /** A character of the decimalization table is not a digit. */
  TABLE_DIGIT("a character of the decimalization table is not a digit"),
  /** The decimalization table has fewer than eight different digits. */
  TABLE_VARIETY("the decimalization table has fewer than eight different digits"),
  /** The PIN is wrong. */
  WRONG_PIN("the PIN is wrong"),
  /** There is no translation of PIN blocks from this format, only from 0, 1 and 3. */
  FORMATS("there is no translation of PIN blocks from this format, only from 0, 1 and 3"),
  /** Decrypted, the PIN block is not one of its format and account number. */
  PIN_BLOCK("decrypted, the PIN block is not one of its format and account number"),
  /** The sequence number does not have two digits. */
  SEQUENCE_LENGTH("the sequence number does not have two digits"),
  /** A character of the sequence number is not a digit. */
  SEQUENCE_DIGIT("a character of the sequence number is not a digit"),
  /** The issuer's data have more than 8 bytes. */
  DATA_LENGTH("the issuer's data have more than 8 bytes"),
  /** The protection key does not have 16 or 24 bytes. */
  PROTECTION_KEY_LENGTH("the protection key does not have 16 or 24 bytes"),
  /** The key block is not as long as its header says, longer than 9999 characters, or too long for its buffer. */
  KEY_BLOCK_LENGTH("the key block is not as long as its header says, longer than 9999 characters, or too long for its buffer"),
  /** The version of the key block is not one that the call takes. */
  VERSION("the version of the key block is not one that the call takes"),
  /** The header does not end with two digits, 0, 1 or 2, and 0, or a field to be written is not letters and digits. */
  HEADER("the header does not end with two digits, 0, 1 or 2, and 0, or a field to be written is not letters and digits"),
  /**
   * The optional blocks can't be read or written: a wrong length, name, content or PB, an end off a multiple of
   * eight, or more than 99.
   */
  OPTIONAL_BLOCK(
      "the optional blocks can't be read or written: a wrong length, name, content or PB, an end off a multiple of eight, or more than 99"),
  /** The encrypted key data do not have a length that they can have. */
  KEY_DATA_LENGTH("the encrypted key data do not have a length that they can have"),
  /** A character of the encrypted key data or the MAC is not 0 to 9 or A to F. */
  KEY_BLOCK_DIGIT("a character of the encrypted key data or the MAC is not 0 to 9 or A to F"),
  /** The MAC is not that of the key block. */
  KEY_BLOCK_MAC("the MAC is not that of the key block"),
  /** The padding of the key does not have 6, 14 or 22 bytes, or has more than 30 with the key. */
  PADDING_LENGTH("the padding of the key does not have 6, 14 or 22 bytes, or has more than 30 with the key"),
  /** The key block has no optional block at this place. */
  NO_OPTIONAL_BLOCK("the key block has no optional block at this place"),
  /** The hash function is not one that the call takes. */
  HASH("the hash function is not one that the call takes"),
  /** The number of iterations is not 1 to 2^32 - 1. */
  ITERATIONS("the number of iterations is not 1 to 2^32 - 1"),
  /** The bytes do not begin with Salted__. */
  NOT_SALTED("the bytes do not begin with Salted__"),
  /** The bytes end within the salt, or it does not have 0 or 8 bytes. */
  SALT_LENGTH("the bytes end within the salt, or it does not have 0 or 8 bytes"),
  /** The context is not one that the init of this type made. */
  CONTEXT("the context is not one that the init of this type made"),
  /** The mode is not one that the call takes. */
  MODE("the mode is not one that the call takes"),
  /** The stream is not one that was begun. */
  STREAM("the stream is not one that was begun"),
  /** The wrapped key does not have 24 bytes or more, a multiple of 8 (CMS), or 12 or more, a multiple of 4 (TKW). */
  WRAPPED_LENGTH("the wrapped key does not have 24 bytes or more, a multiple of 8 (CMS), or 12 or more, a multiple of 4 (TKW)"),
  /** The bytes are no key wrapped under the protection key, or were changed. */
  WRAPPED_KEY("the bytes are no key wrapped under the protection key, or were changed"),
  /** The value is none that MySQL encrypted. */
  NOT_ENCRYPTED("the value is none that MySQL encrypted"),
  /** Some values can't be read: their statuses say why. */
  VALUES("some values can't be read: their statuses say why"),
  /** The algorithm is not one that the call takes. */
  ALGORITHM("the algorithm is not one that the call takes"),
  /** The value is not Base64. */
  BASE64("the value is not Base64"),
  /** The number is not 0 to 9, or the file has no key of that number. */
  KEY_NUMBER("the number is not 0 to 9, or the file has no key of that number"),
  /** What the call would write overlaps what it reads. */
  OVERLAP("what the call would write overlaps what it reads");

  private static final Status[] BY_NUMBER = values();

  private final String sentence;

  Status(String sentence) {
    this.sentence = sentence;
  }

  /** What is wrong, in words. */
  public String sentence() {
    return sentence;
  }

  static Status of(int number) {
    return BY_NUMBER[number];
  }
}
