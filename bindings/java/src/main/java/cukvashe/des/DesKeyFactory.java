package cukvashe.des;

import java.security.InvalidKeyException;
import java.security.spec.InvalidKeySpecException;
import java.security.spec.KeySpec;
import java.util.Arrays;
import javax.crypto.SecretKey;
import javax.crypto.SecretKeyFactorySpi;
import javax.crypto.spec.DESKeySpec;
import javax.crypto.spec.DESedeKeySpec;
import javax.crypto.spec.SecretKeySpec;

/** Makes keys, with odd parity as SunJCE. */
final class DesKeyFactory extends SecretKeyFactorySpi {
  private final Algorithm algorithm;

  DesKeyFactory(Algorithm algorithm) {
    this.algorithm = algorithm;
  }

  @Override
  protected SecretKey engineGenerateSecret(KeySpec spec) throws InvalidKeySpecException {
    if (algorithm == Algorithm.DESEDE && spec instanceof DESedeKeySpec) {
      return DesKey.withOddParity(algorithm.title, ((DESedeKeySpec) spec).getKey());
    }
    if (algorithm == Algorithm.DES && spec instanceof DESKeySpec) {
      return DesKey.withOddParity(algorithm.title, ((DESKeySpec) spec).getKey());
    }
    if (spec instanceof SecretKeySpec) {
      try {
        return DesKey.withOddParity(algorithm.title, algorithm.bytesOf((SecretKeySpec) spec));
      } catch (InvalidKeyException error) {
        throw new InvalidKeySpecException(error.getMessage(), error);
      }
    }
    throw new InvalidKeySpecException("there is no key of " + algorithm.title + " in this specification");
  }

  @Override
  protected KeySpec engineGetKeySpec(SecretKey key, Class<?> wanted) throws InvalidKeySpecException {
    byte[] bytes = null;
    try {
      bytes = algorithm.bytesOf(key);
      if (wanted != null && algorithm == Algorithm.DESEDE && wanted.isAssignableFrom(DESedeKeySpec.class)) {
        return new DESedeKeySpec(bytes);
      }
      if (wanted != null && algorithm == Algorithm.DES && wanted.isAssignableFrom(DESKeySpec.class)) {
        return new DESKeySpec(bytes);
      }
      if (wanted != null && wanted.isAssignableFrom(SecretKeySpec.class)) {
        return new SecretKeySpec(bytes, algorithm.title);
      }
    } catch (InvalidKeyException error) {
      throw new InvalidKeySpecException(error.getMessage(), error);
    } finally {
      if (bytes != null) {
        Arrays.fill(bytes, (byte) 0);
      }
    }
    throw new InvalidKeySpecException("there is no such specification of a key of " + algorithm.title);
  }

  @Override
  protected SecretKey engineTranslateKey(SecretKey key) throws InvalidKeyException {
    byte[] bytes = algorithm.bytesOf(key);
    if (key instanceof DesKey) {
      Arrays.fill(bytes, (byte) 0);
      return key;
    }
    return DesKey.withOddParity(algorithm.title, bytes);
  }
}
