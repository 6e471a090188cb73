package cukvashe.des;

import java.security.SecureRandom;

/**
 * PIN blocks in clear (ISO 9564-1, formats 0 to 3): encrypt one as a single block, in ECB without padding, but for format 2, which goes to
 * a card. A PIN has 4 to 12 digits, an account number (PAN) 8 to 19, the last the check digit. {@link PinTranslation} translates encrypted
 * ones.
 */
public final class PinBlocks {
  private PinBlocks() {}

  private interface Call {
    int of(byte[] made);
  }

  private static byte[] encoded(Call call) throws CukvasheException {
    try (Secret made = Secret.buffer(Native.BLOCK_SIZE)) {
      CukvasheException.check(call.of(made.bytes));
      return made.copy();
    }
  }

  private static Pin decoded(Call call) throws CukvasheException {
    try (Secret made = Secret.buffer(Native.PIN_SIZE)) {
      CukvasheException.check(call.of(made.bytes));
      return made.pin();
    }
  }

  private static byte[] block(byte[] block) {
    return Secret.sized(block, Native.BLOCK_SIZE, "a PIN block");
  }

  static byte[] fill(byte[] digits) {
    return Secret.sized(digits, Native.FILL_SIZE, "a list of fill digits");
  }

  /** Ten random fill digits for format 3, from 10 to 15, one in a byte. */
  public static byte[] fillDigits(SecureRandom random) {
    byte[] digits = new byte[Native.FILL_SIZE];
    for (int at = 0; at < digits.length; at++) {
      digits[at] = (byte) (10 + random.nextInt(6));
    }
    return digits;
  }

  /**
   * The block of format 0.
   *
   * @throws CukvasheException {@link Status#PIN_LENGTH}, {@link Status#PIN_DIGIT}, {@link Status#ACCOUNT_LENGTH}, {@link
   *     Status#ACCOUNT_DIGIT}
   */
  public static byte[] encode0(Pin pin, String account) throws CukvasheException {
    try (Secret digits = Secret.pin(pin)) {
      return encoded(made -> Native.pinEncode0(digits.bytes, Secret.text(account), made));
    }
  }

  /**
   * The block of format 1, with ten transaction digits, one in a byte, from 0 to 15, of which it takes as many as fit.
   *
   * @throws CukvasheException {@link Status#PIN_LENGTH}, {@link Status#PIN_DIGIT}, {@link Status#FILL}
   * @throws IllegalArgumentException if there are not ten digits
   */
  public static byte[] encode1(Pin pin, byte[] transaction) throws CukvasheException {
    try (Secret digits = Secret.pin(pin)) {
      return encoded(made -> Native.pinEncode1(digits.bytes, fill(transaction), made));
    }
  }

  /**
   * The block of format 2, which goes to a card in clear.
   *
   * @throws CukvasheException {@link Status#PIN_LENGTH}, {@link Status#PIN_DIGIT}
   */
  public static byte[] encode2(Pin pin) throws CukvasheException {
    try (Secret digits = Secret.pin(pin)) {
      return encoded(made -> Native.pinEncode2(digits.bytes, made));
    }
  }

  /**
   * The block of format 3, with ten fill digits as of {@link #fillDigits}.
   *
   * @throws CukvasheException {@link Status#PIN_LENGTH}, {@link Status#PIN_DIGIT}, {@link Status#ACCOUNT_LENGTH}, {@link
   *     Status#ACCOUNT_DIGIT}, {@link Status#FILL}
   * @throws IllegalArgumentException if there are not ten digits
   */
  public static byte[] encode3(Pin pin, String account, byte[] fill) throws CukvasheException {
    try (Secret digits = Secret.pin(pin)) {
      return encoded(made -> Native.pinEncode3(digits.bytes, Secret.text(account), fill(fill), made));
    }
  }

  /**
   * The PIN of a block of format 0. Which error comes reveals something of the PIN: show it to nobody.
   *
   * @throws CukvasheException {@link Status#ACCOUNT_LENGTH}, {@link Status#ACCOUNT_DIGIT}, {@link Status#FORMAT}, {@link
   *     Status#PIN_LENGTH}, {@link Status#PIN_DIGIT}, {@link Status#FILL}
   * @throws IllegalArgumentException if a PIN block does not have 8 bytes
   */
  public static Pin decode0(byte[] block, String account) throws CukvasheException {
    return decoded(made -> Native.pinDecode0(block(block), Secret.text(account), made));
  }

  /**
   * The PIN of a block of format 1.
   *
   * @throws CukvasheException {@link Status#FORMAT}, {@link Status#PIN_LENGTH}, {@link Status#PIN_DIGIT}
   * @throws IllegalArgumentException if a PIN block does not have 8 bytes
   */
  public static Pin decode1(byte[] block) throws CukvasheException {
    return decoded(made -> Native.pinDecode1(block(block), made));
  }

  /**
   * The PIN of a block of format 2.
   *
   * @throws CukvasheException {@link Status#FORMAT}, {@link Status#PIN_LENGTH}, {@link Status#PIN_DIGIT}, {@link Status#FILL}
   * @throws IllegalArgumentException if a PIN block does not have 8 bytes
   */
  public static Pin decode2(byte[] block) throws CukvasheException {
    return decoded(made -> Native.pinDecode2(block(block), made));
  }

  /**
   * The PIN of a block of format 3.
   *
   * @throws CukvasheException as {@link #decode0}
   * @throws IllegalArgumentException if a PIN block does not have 8 bytes
   */
  public static Pin decode3(byte[] block, String account) throws CukvasheException {
    return decoded(made -> Native.pinDecode3(block(block), Secret.text(account), made));
  }
}
