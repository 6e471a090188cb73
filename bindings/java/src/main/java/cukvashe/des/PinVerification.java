package cukvashe.des;

import javax.crypto.SecretKey;

/**
 * PIN verification: the PIN verification value (PVV), and offsets by the method of the IBM 3624. A call that verifies returns for the right
 * PIN, and throws for every other. Count wrong PINs: unlimited guesses find the right one.
 */
public final class PinVerification {
  private PinVerification() {}

  private static byte[] validation(byte[] data) {
    return Secret.sized(data, Native.BLOCK_SIZE, "the validation data");
  }

  /**
   * The PIN verification value, four digits, of an account number of 12 to 19 digits and the first four digits of a PIN.
   *
   * @param key a key pair, 16 bytes
   * @param index its index, 1 to 6
   * @throws CukvasheException {@link Status#KEY_LENGTH}, {@link Status#PIN_LENGTH}, {@link Status#PIN_DIGIT}, {@link
   *     Status#ACCOUNT_LENGTH}, {@link Status#ACCOUNT_DIGIT}, {@link Status#KEY_INDEX}
   */
  public static String pvv(SecretKey key, String account, int index, Pin pin) throws CukvasheException {
    try (Secret pair = Secret.key(key, 16);
        Secret digits = Secret.pin(pin);
        Secret made = Secret.buffer(Native.PVV_SIZE)) {
      CukvasheException.check(Native.pvv(pair.bytes, Secret.text(account), index, digits.bytes, made.bytes));
      return made.text();
    }
  }

  /**
   * Accepts the PIN whose PIN verification value this is.
   *
   * @throws CukvasheException as {@link #pvv}; {@link Status#WRONG_PIN} for any other PIN
   */
  public static void verifyPvv(SecretKey key, String account, int index, Pin pin, String value) throws CukvasheException {
    try (Secret pair = Secret.key(key, 16);
        Secret digits = Secret.pin(pin)) {
      CukvasheException.check(Native.pvvVerify(pair.bytes, Secret.text(account), index, digits.bytes, Secret.text(value)));
    }
  }

  /**
   * The natural PIN: the first digits of the validation data, encrypted, each by the decimalization table.
   *
   * @param key a key of 8, 16 or 24 bytes
   * @param validation sixteen digits in 8 bytes that the issuer chooses
   * @param length how many digits it has, 4 to 12
   * @throws CukvasheException {@link Status#KEY_LENGTH}, {@link Status#PIN_LENGTH}
   * @throws IllegalArgumentException if the validation data do not have 8 bytes
   */
  public static Pin naturalPin(SecretKey key, DecimalTable table, byte[] validation, int length) throws CukvasheException {
    try (Secret secret = Secret.key(key, 8, 16, 24);
        Secret made = Secret.buffer(Native.PIN_SIZE)) {
      CukvasheException.check(
          Native.naturalPin(secret.bytes, table.digits, validation(validation), Integer.toUnsignedLong(length), made.bytes));
      return made.pin();
    }
  }

  /**
   * The offset of a PIN: digit by digit, modulo ten, the PIN less the natural PIN.
   *
   * @throws CukvasheException {@link Status#PIN_LENGTH}, {@link Status#PIN_DIGIT}, {@link Status#KEY_LENGTH}
   * @throws IllegalArgumentException if the validation data do not have 8 bytes
   */
  public static String offset(SecretKey key, DecimalTable table, byte[] validation, Pin pin) throws CukvasheException {
    try (Secret secret = Secret.key(key, 8, 16, 24);
        Secret digits = Secret.pin(pin);
        Secret made = Secret.buffer(Native.PIN_SIZE)) {
      CukvasheException.check(Native.pinOffset(secret.bytes, table.digits, validation(validation), digits.bytes, made.bytes));
      return made.text();
    }
  }

  /**
   * Accepts the PIN whose offset this is.
   *
   * @throws CukvasheException as {@link #offset}, first of the PIN, then of the offset; {@link Status#WRONG_PIN} for any other PIN
   * @throws IllegalArgumentException if the validation data do not have 8 bytes
   */
  public static void verifyOffset(SecretKey key, DecimalTable table, byte[] validation, Pin pin, String offset)
      throws CukvasheException {
    try (Secret secret = Secret.key(key, 8, 16, 24);
        Secret digits = Secret.pin(pin)) {
      CukvasheException.check(
          Native.pinOffsetVerify(secret.bytes, table.digits, validation(validation), digits.bytes, Secret.text(offset)));
    }
  }
}
