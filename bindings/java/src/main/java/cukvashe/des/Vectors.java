package cukvashe.des;

import java.security.AlgorithmParameters;
import java.security.InvalidAlgorithmParameterException;
import java.security.NoSuchAlgorithmException;
import java.security.Provider;
import java.security.ProviderException;
import java.security.SecureRandom;
import java.security.spec.AlgorithmParameterSpec;
import java.security.spec.InvalidParameterSpecException;
import javax.crypto.spec.IvParameterSpec;

/** Initialization vectors, and the parameters of JCE that have one. */
final class Vectors {
  private Vectors() {}

  /** A random one, from a source of one's own if none is given. */
  static byte[] random(SecureRandom random) {
    byte[] vector = new byte[Native.BLOCK_SIZE];
    (random == null ? new SecureRandom() : random).nextBytes(vector);
    return vector;
  }

  /** The one of a specification, or null of none. */
  static byte[] of(AlgorithmParameterSpec spec) throws InvalidAlgorithmParameterException {
    if (spec == null) {
      return null;
    }
    if (!(spec instanceof IvParameterSpec)) {
      throw new InvalidAlgorithmParameterException("the parameters are not an IvParameterSpec");
    }
    byte[] vector = ((IvParameterSpec) spec).getIV();
    if (vector.length != Native.BLOCK_SIZE) {
      throw new InvalidAlgorithmParameterException(
          "an initialization vector has " + Native.BLOCK_SIZE + " bytes, not " + vector.length);
    }
    return vector;
  }

  /** The specification in parameters, or null of none. */
  static IvParameterSpec specOf(AlgorithmParameters parameters) throws InvalidAlgorithmParameterException {
    try {
      return parameters == null ? null : parameters.getParameterSpec(IvParameterSpec.class);
    } catch (InvalidParameterSpecException error) {
      throw new InvalidAlgorithmParameterException("the parameters have no initialization vector", error);
    }
  }

  static AlgorithmParameters parameters(byte[] vector, Algorithm algorithm, Provider provider) {
    try {
      AlgorithmParameters parameters = AlgorithmParameters.getInstance(algorithm.title, provider);
      parameters.init(new IvParameterSpec(vector));
      return parameters;
    } catch (NoSuchAlgorithmException | InvalidParameterSpecException impossible) {
      throw new ProviderException(impossible);
    }
  }
}
