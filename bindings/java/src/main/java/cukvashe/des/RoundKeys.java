package cukvashe.des;

import java.util.Arrays;

/**
 * The round keys of a cipher: a context of C as an array on Java's heap, which each call copies to its stack. So nothing is to be freed,
 * and threads that share an object can misuse no memory.
 */
final class RoundKeys {
  private final long[] context;

  /** Of a key of 8, 16 or 24 bytes. */
  RoundKeys(byte[] key, boolean readsTables) {
    int status;
    if (key.length == Native.DES_KEY_SIZE) {
      context = new long[Native.DES_WORDS];
      status = readsTables ? Native.desInit(context, key) : Native.desInitNoTables(context, key);
    } else if (key.length == Native.TDES_EDE2_KEY_SIZE) {
      context = new long[Native.TDES_EDE2_WORDS];
      status = readsTables ? Native.tdesEde2Init(context, key) : Native.tdesEde2InitNoTables(context, key);
    } else {
      context = new long[Native.TDES_EDE3_WORDS];
      status = readsTables ? Native.tdesEde3Init(context, key) : Native.tdesEde3InitNoTables(context, key);
    }
    if (status != 0) {
      throw new IllegalArgumentException(Status.of(status).sentence());
    }
  }

  /** Overwrites the words. Copies that the collector made before stay. */
  void wipe() {
    Arrays.fill(context, 0);
  }

  long decrypted(long block) {
    return Native.block(context, Native.DECRYPT, block);
  }

  /** Encrypts or decrypts whole blocks in place. The next vector. */
  long run(int flags, long iv, byte[] data, int offset, int length) {
    return Native.blocks(context, flags, iv, data, offset, length);
  }

  /** Encrypts or decrypts the bytes that come next in a stream, in place. */
  void next(long[] stream, boolean decrypts, byte[] data, int offset, int length) {
    Native.next(context, stream, decrypts, data, offset, length);
  }

  /** Encrypts or decrypts records in place; each vector becomes the last ciphertext block. The status. */
  int records(boolean decrypts, byte[] vectors, long[] counts, byte[] data) {
    switch (context.length) {
      case Native.DES_WORDS:
        return decrypts
            ? Native.desDecryptCbcRecords(context, vectors, counts, data)
            : Native.desEncryptCbcRecords(context, vectors, counts, data);
      case Native.TDES_EDE2_WORDS:
        return decrypts
            ? Native.tdesEde2DecryptCbcRecords(context, vectors, counts, data)
            : Native.tdesEde2EncryptCbcRecords(context, vectors, counts, data);
      default:
        return decrypts
            ? Native.tdesEde3DecryptCbcRecords(context, vectors, counts, data)
            : Native.tdesEde3EncryptCbcRecords(context, vectors, counts, data);
    }
  }
}
