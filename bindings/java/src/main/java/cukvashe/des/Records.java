package cukvashe.des;

import javax.crypto.SecretKey;

/**
 * Many records under one key in one call, by CBC, each from an initialization vector of its own. Records have whole blocks of 8 bytes, or
 * none; nothing is padded. No call reads tables.
 */
public final class Records {
  private Records() {}

  /**
   * Encrypts records.
   *
   * @param key a key of 8, 16 or 24 bytes
   * @param records the records, one after the other
   * @param vectors the vectors, one after the other
   * @param counts how many blocks each record has. Records of like lengths go fastest.
   * @return the records; what was given stays
   * @throws CukvasheException {@link Status#KEY_LENGTH}; {@link Status#COUNTS} if there is not a vector for each record; {@link
   *     Status#BLOCKS}; {@link Status#COUNTS} if the counts do not add up to the blocks of the records
   */
  public static byte[] encryptCbc(SecretKey key, byte[] records, byte[] vectors, long[] counts) throws CukvasheException {
    return run(false, key, records.clone(), vectors.clone(), counts);
  }

  /**
   * Decrypts records: the inverse of {@link #encryptCbc}.
   *
   * @throws CukvasheException as {@link #encryptCbc}
   */
  public static byte[] decryptCbc(SecretKey key, byte[] records, byte[] vectors, long[] counts) throws CukvasheException {
    return run(true, key, records.clone(), vectors.clone(), counts);
  }

  private static byte[] run(boolean decrypts, SecretKey key, byte[] records, byte[] vectors, long[] counts) throws CukvasheException {
    try (Secret secret = Secret.key(key, 8, 16, 24)) {
      RoundKeys keys = new RoundKeys(secret.bytes, false);
      try {
        CukvasheException.check(keys.records(decrypts, vectors, counts, records));
      } finally {
        keys.wipe();
      }
    }
    return records;
  }
}
