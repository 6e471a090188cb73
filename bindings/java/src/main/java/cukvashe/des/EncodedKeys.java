package cukvashe.des;

import java.security.InvalidKeyException;
import java.security.Key;
import java.security.KeyFactory;
import java.security.NoSuchAlgorithmException;
import java.security.spec.InvalidKeySpecException;
import java.security.spec.PKCS8EncodedKeySpec;
import java.security.spec.X509EncodedKeySpec;
import java.util.Arrays;
import javax.crypto.Cipher;
import javax.crypto.spec.SecretKeySpec;

/** The bytes of keys that ciphers wrap, and the keys that they unwrap. */
final class EncodedKeys {
  private EncodedKeys() {}

  /** A copy of the bytes of a key that is to be wrapped, which the caller overwrites. */
  static byte[] of(Key key) throws InvalidKeyException {
    byte[] bytes = key.getEncoded();
    if (bytes == null || bytes.length == 0) {
      throw new InvalidKeyException("the key that is to be wrapped has no encoding");
    }
    return bytes;
  }

  /** The key of a type of {@code Cipher} that was unwrapped. Its bytes are overwritten. */
  static Key unwrapped(byte[] bytes, String name, int type) throws InvalidKeyException, NoSuchAlgorithmException {
    try {
      switch (type) {
        case Cipher.SECRET_KEY:
          return new SecretKeySpec(bytes, name);
        case Cipher.PRIVATE_KEY:
          return KeyFactory.getInstance(name).generatePrivate(new PKCS8EncodedKeySpec(bytes));
        case Cipher.PUBLIC_KEY:
          return KeyFactory.getInstance(name).generatePublic(new X509EncodedKeySpec(bytes));
        default:
          throw new InvalidKeyException("there is no type of keys " + type);
      }
    } catch (InvalidKeySpecException | IllegalArgumentException error) {
      throw new InvalidKeyException("what is unwrapped is no key of " + name, error);
    } finally {
      Arrays.fill(bytes, (byte) 0);
    }
  }
}
