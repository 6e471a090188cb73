package cukvashe.des;

import java.util.Arrays;

/** Keys from passwords, to read what others wrote: MD5 and SHA-1 are broken, and passwords are quick to guess. */
public final class Passwords {
  private Passwords() {}

  /** A buffer for a key. */
  private static byte[] buffer(int length) throws CukvasheException {
    Native.isThere();
    if (length < 1) {
      throw new CukvasheException(Status.KEY_LENGTH);
    }
    return new byte[length];
  }

  /**
   * A key by PBKDF2 (RFC 8018, 5.2) with HMAC over a hash function. Overwrite it after use.
   *
   * @throws CukvasheException {@link Status#KEY_LENGTH} if the length is not positive; {@link Status#HASH} of MD5; {@link Status#ITERATIONS}
   *     if they are not 1 to 2^32 - 1
   */
  public static byte[] pbkdf2(HashFunction hash, byte[] password, byte[] salt, long iterations, int length) throws CukvasheException {
    byte[] key = buffer(length);
    CukvasheException.check(Native.pbkdf2(hash.number, iterations, password, salt, key));
    return key;
  }

  /**
   * The key, and after it the vector, that OpenSSL's EVP_BytesToKey makes with one iteration. Overwrite them after use.
   *
   * @param salt 8 bytes, or none
   * @param length of both together: 32 for a key of 24 bytes
   * @throws CukvasheException {@link Status#KEY_LENGTH} if the length is not positive; {@link Status#SALT_LENGTH}
   */
  public static byte[] bytesToKey(HashFunction hash, byte[] password, byte[] salt, int length) throws CukvasheException {
    byte[] key = buffer(length);
    CukvasheException.check(Native.bytesToKey(hash.number, password, salt, key));
    return key;
  }

  /**
   * The key, and after it the vector, of password-based encryption: PKCS #5 version 1.5, PKCS #12, or SunJCE's own. JCE has most of these as
   * ciphers too, as {@code PBEWithMD5AndDES}. Overwrite them after use.
   *
   * @param algorithm its name in Java, as {@code PBEWithSHA1AndDESede}, or in the standards, as {@code pbeWithSHAAnd2-KeyTripleDES-CBC}
   * @param password by PKCS #12 UTF-8
   * @param length of both together: 16 for DES, 24 for two keys, 32 for triple DES
   * @throws CukvasheException {@link Status#ALGORITHM}, {@link Status#KEY_LENGTH}, {@link Status#ITERATIONS}; {@link Status#SALT_LENGTH} if
   *     SunJCE's own has a salt of other than 8 bytes
   */
  public static byte[] pbeKey(String algorithm, byte[] password, byte[] salt, long iterations, int length) throws CukvasheException {
    byte[] key = buffer(length);
    CukvasheException.check(Native.pbeKey(Secret.text(algorithm), iterations, password, salt, key));
    return key;
  }

  /**
   * The plaintext of a file that {@code openssl enc} encrypted under a password by {@code -des3}, or with a key size of 8 or 16 by {@code
   * -des-cbc} or {@code -des-ede-cbc}. Nothing authenticates it: a wrong password gives wrong bytes once in 256 times, and else {@link
   * Status#PADDING}. Tell nobody who sends you files which error they gave.
   *
   * @param size the bytes of the key: 8, 16 or 24
   * @param hash that of {@code -md}: by default SHA-256, before OpenSSL 1.1.0 MD5
   * @param iterations those of {@code -iter}; 10000 if only {@code -pbkdf2} was given; 0 if neither was
   * @throws CukvasheException {@link Status#KEY_LENGTH} of another size; {@link Status#HASH}, {@link Status#NOT_SALTED}, {@link
   *     Status#SALT_LENGTH}, {@link Status#ITERATIONS}, {@link Status#BLOCKS}, {@link Status#PADDING}
   */
  public static byte[] openSalted(int size, HashFunction hash, long iterations, byte[] password, byte[] file) throws CukvasheException {
    long[] length = new long[1];
    try (Secret made = Secret.buffer(file.length)) {
      int status;
      if (size == 8) {
        status = Native.desOpenSalted(hash.number, iterations, password, file, made.bytes, length);
      } else if (size == 16) {
        status = Native.tdesEde2OpenSalted(hash.number, iterations, password, file, made.bytes, length);
      } else if (size == 24) {
        status = Native.tdesEde3OpenSalted(hash.number, iterations, password, file, made.bytes, length);
      } else {
        throw new CukvasheException(Status.KEY_LENGTH);
      }
      CukvasheException.check(status);
      return Arrays.copyOf(made.bytes, (int) length[0]);
    }
  }
}
