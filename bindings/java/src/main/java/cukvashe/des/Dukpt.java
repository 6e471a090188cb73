package cukvashe.des;

import javax.crypto.SecretKey;

/**
 * The keys of transactions: DUKPT with triple DES (ANSI X9.24-1:2009), the host's side. Keys have 16 bytes, key serial numbers (KSN) ten:
 * put bytes FF before a shorter one. {@link DukptTerminal} is the terminal's side.
 */
public final class Dukpt {
  private static final String SERIAL = "a key serial number";

  private Dukpt() {}

  /**
   * Whether a transaction has this key serial number: its counter, the last 21 bits, is not 0 and has at most ten one bits. The calls that
   * make keys take every counter, so ask this of each number that you are sent.
   *
   * @throws IllegalArgumentException if a key serial number does not have 10 bytes
   */
  public static boolean isUsable(byte[] serial) {
    Native.isThere();
    return Native.dukptIsUsable(Secret.sized(serial, Native.DUKPT_SERIAL_SIZE, SERIAL));
  }

  /**
   * The next usable key serial number.
   *
   * @throws CukvasheException {@link Status#NO_SERIAL}
   * @throws IllegalArgumentException if a key serial number does not have 10 bytes
   */
  public static byte[] nextSerial(byte[] serial) throws CukvasheException {
    Native.isThere();
    byte[] next = new byte[Native.DUKPT_SERIAL_SIZE];
    CukvasheException.check(Native.dukptNextSerial(Secret.sized(serial, Native.DUKPT_SERIAL_SIZE, SERIAL), next));
    return next;
  }

  /**
   * The keys of many transactions, of 16 bytes each: for each of the key serial numbers, one after the other, what {@link
   * #transactionKey} makes of {@link #initialKey}. Overwrite them after use.
   *
   * @throws CukvasheException {@link Status#KEY_LENGTH}; {@link Status#COUNTS} if the bytes are not those of whole numbers
   */
  public static byte[] transactionKeysFromBase(SecretKey base, byte[] serials) throws CukvasheException {
    int count = serials.length / Native.DUKPT_SERIAL_SIZE;
    byte[] keys = new byte[Math.multiplyExact(count, Native.DUKPT_KEY_SIZE)];
    try (Secret secret = Secret.key(base, Native.DUKPT_KEY_SIZE)) {
      CukvasheException.check(Native.dukptTransactionKeysFromBase(secret.bytes, serials, keys, count));
    }
    return keys;
  }

  // Calls like those of cukvashe_des.h: made of it by bindings/describe.

  /**
   * The initial key (IK, IPEK) of a terminal, from the base derivation key (BDK) and any of the terminal's key
   * serial numbers (KSN), whose counter plays no part.
   *
   * @throws CukvasheException {@link Status#KEY_LENGTH}
   * @throws IllegalArgumentException if a key serial number does not have 10 bytes
   */
  public static SecretKey initialKey(SecretKey base, byte[] serial) throws CukvasheException {
    Secret.sized(serial, 10, "a key serial number");
    return Secret.derived(16, base, (key, made) -> Native.dukptInitialKey(key, serial, made));
  }

  /**
   * The key of a transaction, which encrypts nothing itself, from the terminal's initial key (IK, IPEK), not the
   * base derivation key (BDK), and the transaction's key serial number (KSN). It takes every counter: ask first
   * whether a transaction has this one.
   *
   * @throws CukvasheException {@link Status#KEY_LENGTH}
   * @throws IllegalArgumentException if a key serial number does not have 10 bytes
   */
  public static SecretKey transactionKey(SecretKey initial, byte[] serial) throws CukvasheException {
    Secret.sized(serial, 10, "a key serial number");
    return Secret.derived(16, initial, (key, made) -> Native.dukptTransactionKey(key, serial, made));
  }

  /**
   * The key that encrypts PIN blocks, from the transaction's key.
   *
   * @throws CukvasheException {@link Status#KEY_LENGTH}
   */
  public static SecretKey pinKey(SecretKey transaction) throws CukvasheException {
    return Secret.derived(16, transaction, (key, made) -> Native.dukptPinKey(key, made));
  }

  /**
   * The key that authenticates the request, or the response, from the transaction's key.
   *
   * @throws CukvasheException {@link Status#KEY_LENGTH}
   */
  public static SecretKey macKey(SecretKey transaction, Direction direction) throws CukvasheException {
    return Secret.derived(16, transaction, (key, made) -> Native.dukptMacKey(key, direction.isResponse(), made));
  }

  /**
   * The key that encrypts the data of the request, or of the response, from the transaction's key.
   *
   * @throws CukvasheException {@link Status#KEY_LENGTH}
   */
  public static SecretKey dataKey(SecretKey transaction, Direction direction) throws CukvasheException {
    return Secret.derived(16, transaction, (key, made) -> Native.dukptDataKey(key, direction.isResponse(), made));
  }

  /**
   * The key that encrypts the data, made without the last step: some terminals take it. It reveals the
   * transaction's other keys.
   *
   * @throws CukvasheException {@link Status#KEY_LENGTH}
   */
  public static SecretKey dataVariant(SecretKey transaction, Direction direction) throws CukvasheException {
    return Secret.derived(16, transaction, (key, made) -> Native.dukptDataVariant(key, direction.isResponse(), made));
  }
  // This ends what bindings/describe made.
}
