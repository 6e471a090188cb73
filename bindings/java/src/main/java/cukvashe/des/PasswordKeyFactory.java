package cukvashe.des;

import java.nio.ByteBuffer;
import java.nio.CharBuffer;
import java.nio.charset.CharacterCodingException;
import java.nio.charset.StandardCharsets;
import java.security.InvalidKeyException;
import java.security.spec.InvalidKeySpecException;
import java.security.spec.KeySpec;
import java.util.Arrays;
import javax.crypto.SecretKey;
import javax.crypto.SecretKeyFactorySpi;
import javax.crypto.spec.PBEKeySpec;

/** Makes keys that are passwords: their bytes are UTF-8, as those of SunJCE in later versions of Java. */
final class PasswordKeyFactory extends SecretKeyFactorySpi {
  private final PasswordScheme scheme;

  PasswordKeyFactory(PasswordScheme scheme) {
    this.scheme = scheme;
  }

  /** The bytes of a password, in UTF-8. */
  static byte[] encoded(char[] characters) throws CharacterCodingException {
    ByteBuffer made = StandardCharsets.UTF_8.newEncoder().encode(CharBuffer.wrap(characters));
    byte[] bytes = Arrays.copyOf(made.array(), made.limit());
    Arrays.fill(made.array(), (byte) 0);
    return bytes;
  }

  @Override
  protected SecretKey engineGenerateSecret(KeySpec spec) throws InvalidKeySpecException {
    if (!(spec instanceof PBEKeySpec)) {
      throw new InvalidKeySpecException("there is no password in this specification");
    }
    char[] characters = ((PBEKeySpec) spec).getPassword();
    try {
      return new DesKey(scheme.title, encoded(characters));
    } catch (CharacterCodingException error) {
      throw new InvalidKeySpecException("the password is no text");
    } finally {
      Arrays.fill(characters, '\0');
    }
  }

  @Override
  protected KeySpec engineGetKeySpec(SecretKey key, Class<?> wanted) throws InvalidKeySpecException {
    if (wanted == null || !wanted.isAssignableFrom(PBEKeySpec.class)) {
      throw new InvalidKeySpecException("there is no such specification of a password");
    }
    try {
      byte[] bytes = bytesOf(key);
      CharBuffer made = StandardCharsets.UTF_8.decode(ByteBuffer.wrap(bytes));
      char[] characters = Arrays.copyOf(made.array(), made.limit());
      PBEKeySpec spec = new PBEKeySpec(characters);
      Arrays.fill(bytes, (byte) 0);
      Arrays.fill(made.array(), '\0');
      Arrays.fill(characters, '\0');
      return spec;
    } catch (InvalidKeyException error) {
      throw new InvalidKeySpecException(error.getMessage(), error);
    }
  }

  @Override
  protected SecretKey engineTranslateKey(SecretKey key) throws InvalidKeyException {
    byte[] bytes = bytesOf(key);
    if (!(key instanceof DesKey)) {
      return new DesKey(scheme.title, bytes);
    }
    Arrays.fill(bytes, (byte) 0);
    return key;
  }

  private byte[] bytesOf(SecretKey key) throws InvalidKeyException {
    if (key == null || !scheme.title.equalsIgnoreCase(key.getAlgorithm())) {
      throw new InvalidKeyException("the key is not that of a password for " + scheme.title);
    }
    return Algorithm.rawOf(key);
  }
}
