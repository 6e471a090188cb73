package cukvashe.des;

import java.security.InvalidAlgorithmParameterException;
import java.security.InvalidParameterException;
import java.security.SecureRandom;
import java.security.spec.AlgorithmParameterSpec;
import java.util.Arrays;
import javax.crypto.KeyGeneratorSpi;
import javax.crypto.SecretKey;

/** Makes random keys that are not weak. */
final class DesKeyGenerator extends KeyGeneratorSpi {
  private final Algorithm algorithm;
  private int size;
  private SecureRandom random;

  DesKeyGenerator(Algorithm algorithm) {
    this.algorithm = algorithm;
    this.size = algorithm == Algorithm.DES ? 8 : 24;
  }

  @Override
  protected void engineInit(SecureRandom source) {
    random = source;
  }

  @Override
  protected void engineInit(AlgorithmParameterSpec parameters, SecureRandom source) throws InvalidAlgorithmParameterException {
    throw new InvalidAlgorithmParameterException("keys of " + algorithm.title + " are made without parameters");
  }

  @Override
  protected void engineInit(int bits, SecureRandom source) {
    if (bits % 7 != 0 || !algorithm.takes(bits / 7)) {
      throw new InvalidParameterException("keys have " + (algorithm == Algorithm.DES ? "56" : "112 or 168") + " bits without parity");
    }
    size = bits / 7;
    random = source;
  }

  @Override
  protected SecretKey engineGenerateKey() {
    if (random == null) {
      random = new SecureRandom();
    }
    byte[] bytes = new byte[size];
    do {
      random.nextBytes(bytes);
    } while (Native.weakKeyTest(bytes) != 0);
    if (size == 16) {
      // As SunJCE makes a key of 112 bits: 24 bytes, the first part again at the end.
      byte[] three = Arrays.copyOf(bytes, 24);
      System.arraycopy(bytes, 0, three, 16, 8);
      Arrays.fill(bytes, (byte) 0);
      bytes = three;
    }
    return DesKey.withOddParity(algorithm.title, bytes);
  }
}
