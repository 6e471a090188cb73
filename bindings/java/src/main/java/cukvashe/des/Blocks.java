package cukvashe.des;

/** Many blocks in one call, each under a key of its own. */
public final class Blocks {
  private Blocks() {}

  /**
   * Encrypts each block of 8 bytes under the key at its place.
   *
   * @param size the bytes of a key: 8, 16 or 24
   * @param keys the keys, one after the other
   * @return the blocks; what was given stays
   * @throws CukvasheException {@link Status#KEY_LENGTH} of another size; {@link Status#BLOCKS}; {@link Status#COUNTS} if there is not a key
   *     for each block
   */
  public static byte[] encryptEach(int size, byte[] keys, byte[] blocks) throws CukvasheException {
    return each(false, size, keys, blocks.clone());
  }

  /**
   * Decrypts each block of 8 bytes under the key at its place: the inverse of {@link #encryptEach}.
   *
   * @throws CukvasheException as {@link #encryptEach}
   */
  public static byte[] decryptEach(int size, byte[] keys, byte[] blocks) throws CukvasheException {
    return each(true, size, keys, blocks.clone());
  }

  private static byte[] each(boolean decrypts, int size, byte[] keys, byte[] blocks) throws CukvasheException {
    Native.isThere();
    if (size != 8 && size != 16 && size != 24) {
      throw new CukvasheException(Status.KEY_LENGTH);
    }
    if (blocks.length % Native.BLOCK_SIZE == 0 && keys.length % size != 0) {
      throw new CukvasheException(Status.COUNTS);
    }
    int status;
    if (size == 8) {
      status = decrypts ? Native.desDecryptEach(keys, blocks) : Native.desEncryptEach(keys, blocks);
    } else if (size == 16) {
      status = decrypts ? Native.tdesEde2DecryptEach(keys, blocks) : Native.tdesEde2EncryptEach(keys, blocks);
    } else {
      status = decrypts ? Native.tdesEde3DecryptEach(keys, blocks) : Native.tdesEde3EncryptEach(keys, blocks);
    }
    CukvasheException.check(status);
    return blocks;
  }
}
