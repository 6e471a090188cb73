package cukvashe.des;

import java.security.SecureRandom;
import javax.crypto.SecretKey;

/**
 * Keys under a protection key (KEK) of triple DES, of 16 or 24 bytes: by the key wrap of CMS (RFC 3217), which JCE calls {@code
 * DESedeWrap}, and by TKW (NIST SP 800-38F). They may be keys of any algorithm. Overwrite them after use.
 */
public final class KeyWrap {
  private static final int CMS_ADDS = 16;
  private static final int TKW_ADDS = 4;

  private KeyWrap() {}

  private interface Call {
    int of(byte[] protection, byte[] made, long[] length);
  }

  /** The {@code size} bytes that a call makes. */
  private static byte[] made(SecretKey protection, long size, Call call) throws CukvasheException {
    try (Secret kek = Secret.of(Secret.raw(protection));
        Secret made = Secret.buffer(Math.toIntExact(Math.max(0, size)))) {
      CukvasheException.check(call.of(kek.bytes, made.bytes, new long[1]));
      return made.copy();
    }
  }

  /**
   * A key of 8 bytes or a multiple, wrapped by the key wrap of CMS from a random vector: 16 bytes longer.
   *
   * @throws CukvasheException {@link Status#PROTECTION_KEY_LENGTH}; {@link Status#BLOCKS}, also if there is no key
   */
  public static byte[] wrapCms(SecretKey protection, byte[] key) throws CukvasheException {
    return wrapCms(protection, key, Vectors.random(null));
  }

  /**
   * The same from a vector that you give, new and random for each key.
   *
   * @throws CukvasheException as the other call
   * @throws IllegalArgumentException if the vector does not have 8 bytes
   */
  public static byte[] wrapCms(SecretKey protection, byte[] key, byte[] vector) throws CukvasheException {
    Secret.sized(vector, Native.BLOCK_SIZE, "an initialization vector");
    return made(protection, (long) key.length + CMS_ADDS, (kek, made, length) -> Native.cmsWrapKey(kek, vector, key, made, length));
  }

  /**
   * The key that the key wrap of CMS wrapped. Nothing tests its parity.
   *
   * @throws CukvasheException {@link Status#PROTECTION_KEY_LENGTH}, {@link Status#WRAPPED_LENGTH}; {@link Status#WRAPPED_KEY} if it was
   *     changed or is under another key
   */
  public static byte[] unwrapCms(SecretKey protection, byte[] wrapped) throws CukvasheException {
    return made(protection, wrapped.length - CMS_ADDS, (kek, made, length) -> Native.cmsUnwrapKey(kek, wrapped, made, length));
  }

  /**
   * A key of 8 bytes or more, a multiple of 4, wrapped by TKW: 4 bytes longer.
   *
   * @throws CukvasheException {@link Status#PROTECTION_KEY_LENGTH}, {@link Status#KEY_LENGTH}
   */
  public static byte[] wrapTkw(SecretKey protection, byte[] key) throws CukvasheException {
    return made(protection, (long) key.length + TKW_ADDS, (kek, made, length) -> Native.tkwWrapKey(kek, key, made, length));
  }

  /**
   * The key that TKW wrapped. Nothing tests its parity.
   *
   * @throws CukvasheException as {@link #unwrapCms}
   */
  public static byte[] unwrapTkw(SecretKey protection, byte[] wrapped) throws CukvasheException {
    return made(protection, wrapped.length - TKW_ADDS, (kek, made, length) -> Native.tkwUnwrapKey(kek, wrapped, made, length));
  }
}
