package cukvashe.des;

import javax.crypto.SecretKey;

/** Keys of cards, session keys and cryptograms: the issuer's side of EMV 4.3, Book 2, with triple DES. Keys have 16 bytes. */
public final class Emv {
  private Emv() {}

  // Calls like those of cukvashe_des.h: made of it by bindings/describe.

  /**
   * The key of a card (A1.4.1, option A), with odd parity, from the issuer's master key (IMK), an account number
   * (PAN) of 8 to 19 digits and a sequence number (PSN) of two, {@code 00} if the card has none.
   *
   * @throws CukvasheException {@link Status#KEY_LENGTH}, {@link Status#ACCOUNT_LENGTH},
   *     {@link Status#ACCOUNT_DIGIT}, {@link Status#SEQUENCE_LENGTH}, {@link Status#SEQUENCE_DIGIT}
   */
  public static SecretKey cardKey(SecretKey issuer, String account, String sequence) throws CukvasheException {
    return Secret.derived(16, issuer, (key, made) ->
        CukvasheException.check(Native.emvCardKey(key, Secret.text(account), Secret.text(sequence), made)));
  }

  /**
   * The key of a card by option B (A1.4.2), which differs if the account number (PAN) has more than sixteen
   * digits: use it if the card scheme asks for it.
   *
   * @throws CukvasheException {@link Status#KEY_LENGTH}, {@link Status#ACCOUNT_LENGTH},
   *     {@link Status#ACCOUNT_DIGIT}, {@link Status#SEQUENCE_LENGTH}, {@link Status#SEQUENCE_DIGIT}
   */
  public static SecretKey cardKeyB(SecretKey issuer, String account, String sequence) throws CukvasheException {
    return Secret.derived(16, issuer, (key, made) ->
        CukvasheException.check(Native.emvCardKeyB(key, Secret.text(account), Secret.text(sequence), made)));
  }

  /**
   * The session key for application cryptograms, from the card's key and the application transaction counter
   * (ATC), two bytes.
   *
   * @throws CukvasheException {@link Status#KEY_LENGTH}
   * @throws IllegalArgumentException if a transaction counter does not have 2 bytes
   */
  public static SecretKey applicationKey(SecretKey card, byte[] counter) throws CukvasheException {
    Secret.sized(counter, 2, "a transaction counter");
    return Secret.derived(16, card, (key, made) -> Native.emvApplicationKey(key, counter, made));
  }

  /**
   * The session key for other uses (A1.3), from the card's key and eight bytes that are different for each
   * session: for secure messaging the application cryptogram (ARQC). The third of them plays no part.
   *
   * @throws CukvasheException {@link Status#KEY_LENGTH}
   * @throws IllegalArgumentException if block of a session does not have 8 bytes
   */
  public static SecretKey sessionKey(SecretKey card, byte[] block) throws CukvasheException {
    Secret.sized(block, 8, "the block of a session");
    return Secret.derived(16, card, (key, made) -> Native.emvSessionKey(key, block, made));
  }

  /**
   * The application cryptogram (ARQC, TC or AAC; 8.1.2), 8 bytes, under a session key, of the data that the card
   * scheme names: the retail MAC with padding method 2. To check one that a card sent, compare them by
   * MessageDigest.isEqual.
   *
   * @throws CukvasheException {@link Status#KEY_LENGTH}
   */
  public static byte[] applicationCryptogram(SecretKey session, byte[] data) throws CukvasheException {
    try (Secret copiedSession = Secret.key(session, 16);
        Secret made = Secret.buffer(8)) {
      Native.emvApplicationCryptogram(copiedSession.bytes, data, made.bytes);
      return made.copy();
    }
  }

  /**
   * The issuer's response (ARPC) by method 1 (8.2.1), 8 bytes, to an application cryptogram (ARQC), with a
   * response code of two ASCII characters.
   *
   * @throws CukvasheException {@link Status#KEY_LENGTH}
   * @throws IllegalArgumentException if an application cryptogram does not have 8 bytes or a response code does
   *     not have 2 bytes
   */
  public static byte[] response1(SecretKey session, byte[] cryptogram, byte[] code) throws CukvasheException {
    Secret.sized(cryptogram, 8, "an application cryptogram");
    Secret.sized(code, 2, "a response code");
    try (Secret copiedSession = Secret.key(session, 16);
        Secret made = Secret.buffer(8)) {
      Native.emvResponse1(copiedSession.bytes, cryptogram, code, made.bytes);
      return made.copy();
    }
  }

  /**
   * The issuer's response (ARPC) by method 2 (8.2.2), 4 bytes, to an application cryptogram (ARQC), with a card
   * status update of four bytes and at most 8 bytes of the issuer's.
   *
   * @throws CukvasheException {@link Status#KEY_LENGTH}, {@link Status#DATA_LENGTH}
   * @throws IllegalArgumentException if an application cryptogram does not have 8 bytes or a card status update
   *     does not have 4 bytes
   */
  public static byte[] response2(SecretKey session, byte[] cryptogram, byte[] status,
      byte[] data) throws CukvasheException {
    Secret.sized(cryptogram, 8, "an application cryptogram");
    Secret.sized(status, 4, "a card status update");
    try (Secret copiedSession = Secret.key(session, 16);
        Secret made = Secret.buffer(4)) {
      CukvasheException.check(Native.emvResponse2(copiedSession.bytes, cryptogram, status, data, made.bytes));
      return made.copy();
    }
  }
  // This ends what bindings/describe made.
}
