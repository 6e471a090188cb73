package cukvashe.des;

import javax.crypto.SecretKey;

/** Check values of keys, and keys of components. */
public final class Keys {
  private Keys() {}

  /**
   * A key of 8, 16 or 24 bytes, as they are: {@code DES} if it has 8, else {@code DESede}. A copy is made of the bytes.
   *
   * @throws CukvasheException {@link Status#KEY_LENGTH}
   */
  public static SecretKey of(byte[] bytes) throws CukvasheException {
    if (bytes.length != 8 && bytes.length != 16 && bytes.length != 24) {
      throw new CukvasheException(Status.KEY_LENGTH);
    }
    return new DesKey(bytes.length == 8 ? Algorithm.DES.title : Algorithm.DESEDE.title, bytes.clone());
  }

  /**
   * Whether a part of the key has few different round keys (4 weak, 12 semi-weak and 48 more keys), or two of its parts are equal but for
   * parity: so also if a key of two parts comes with its first part again at the end.
   *
   * @throws CukvasheException {@link Status#KEY_LENGTH}
   */
  public static boolean isWeak(SecretKey key) throws CukvasheException {
    try (Secret secret = Secret.key(key, 8, 16, 24)) {
      int status = Native.weakKeyTest(secret.bytes);
      if (Status.of(status) != Status.WEAK_KEY) {
        CukvasheException.check(status);
      }
      return status != 0;
    }
  }

  /**
   * The key with the lowest bit of each byte set so that the number of ones in the byte is odd.
   *
   * @throws CukvasheException {@link Status#KEY_LENGTH}
   */
  public static SecretKey withOddParity(SecretKey key) throws CukvasheException {
    try (Secret secret = Secret.key(key, 8, 16, 24)) {
      Native.setOddParity(secret.bytes);
      return secret.key();
    }
  }

  /**
   * Whether two keys of one length agree in all bits but the lowest of each byte.
   *
   * @throws CukvasheException {@link Status#KEY_LENGTH}
   */
  public static boolean areEqualButParity(SecretKey first, SecretKey second) throws CukvasheException {
    try (Secret one = Secret.key(first, 8, 16, 24);
        Secret other = Secret.key(second, one.bytes.length)) {
      return Native.equalButParity(one.bytes, other.bytes);
    }
  }

  /**
   * The key that two or more components of one length make: their xor, with odd parity.
   *
   * @throws CukvasheException {@link Status#KEY_LENGTH}; {@link Status#WEAK_KEY} if the test of {@link #isWeak} refuses the key
   */
  public static SecretKey combine(SecretKey first, SecretKey second, SecretKey... others) throws CukvasheException {
    try (Secret one = Secret.key(first, 8, 16, 24);
        Secret other = Secret.key(second, one.bytes.length);
        Secret rest = Secret.buffer(others.length * one.bytes.length);
        Secret made = Secret.buffer(one.bytes.length)) {
      int size = one.bytes.length;
      for (int at = 0; at < others.length; at++) {
        try (Secret component = Secret.key(others[at], size)) {
          System.arraycopy(component.bytes, 0, rest.bytes, at * size, size);
        }
      }
      int status;
      if (size == 8) {
        status = Native.combine8(one.bytes, other.bytes, rest.bytes, others.length, made.bytes);
      } else if (size == 16) {
        status = Native.combine16(one.bytes, other.bytes, rest.bytes, others.length, made.bytes);
      } else {
        status = Native.combine24(one.bytes, other.bytes, rest.bytes, others.length, made.bytes);
      }
      CukvasheException.check(status);
      return made.key();
    }
  }

  /**
   * The check values, of 3 bytes each, of many keys of one size, 8, 16 or 24 bytes, one after the other.
   *
   * @throws CukvasheException {@link Status#KEY_LENGTH} of another size; {@link Status#COUNTS} if the bytes are not those of whole keys
   */
  public static byte[] checkValues(int size, byte[] keys) throws CukvasheException {
    Native.isThere();
    int count = keys.length / Math.max(size, 1);
    byte[] values = new byte[Native.CHECK_VALUE_SIZE * count];
    int status;
    if (size == 8) {
      status = Native.desCheckValues(keys, values, count);
    } else if (size == 16) {
      status = Native.tdesEde2CheckValues(keys, values, count);
    } else if (size == 24) {
      status = Native.tdesEde3CheckValues(keys, values, count);
    } else {
      throw new CukvasheException(Status.KEY_LENGTH);
    }
    CukvasheException.check(status);
    return values;
  }

  // Calls like those of cukvashe_des.h: made of it by bindings/describe.

  /**
   * The check value of a key or component, by its length: by DES of 8 bytes, by triple DES (EDE) of 16 or 24.
   *
   * @throws CukvasheException {@link Status#KEY_LENGTH}
   */
  public static byte[] checkValue(SecretKey key) throws CukvasheException {
    try (Secret copiedKey = Secret.key(key, 8, 16, 24);
        Secret made = Secret.buffer(3)) {
      CukvasheException.check(Native.keyCheckValue(copiedKey.bytes, made.bytes));
      return made.copy();
    }
  }

  /**
   * The first two bytes of the check value of a key or component of 8, 16 or 24 bytes, which some systems show.
   *
   * @throws CukvasheException {@link Status#KEY_LENGTH}
   */
  public static byte[] shortCheckValue(SecretKey key) throws CukvasheException {
    try (Secret copiedKey = Secret.key(key, 8, 16, 24);
        Secret made = Secret.buffer(2)) {
      CukvasheException.check(Native.shortKeyCheckValue(copiedKey.bytes, made.bytes));
      return made.copy();
    }
  }
  // This ends what bindings/describe made.
}
