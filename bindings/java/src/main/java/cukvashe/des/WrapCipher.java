package cukvashe.des;

import java.security.AlgorithmParameters;
import java.security.InvalidAlgorithmParameterException;
import java.security.InvalidKeyException;
import java.security.Key;
import java.security.NoSuchAlgorithmException;
import java.security.SecureRandom;
import java.security.spec.AlgorithmParameterSpec;
import java.util.Arrays;
import javax.crypto.Cipher;
import javax.crypto.CipherSpi;
import javax.crypto.IllegalBlockSizeException;
import javax.crypto.NoSuchPaddingException;

/**
 * The key wrap of CMS (RFC 3217): {@code DESedeWrap}, which wraps and unwraps keys, and takes no other bytes. Threads that misuse an object
 * wait for each other, so that none wraps under a key that another one has overwritten.
 */
final class WrapCipher extends CipherSpi {
  /** How many bytes a wrapped key has more than the key: those of the vector and of the checksum. */
  private static final int ADDED = 2 * Native.BLOCK_SIZE;

  private final CukvasheProvider provider;
  private byte[] protection = new byte[0];
  private boolean unwraps;
  private byte[] vector;

  WrapCipher(CukvasheProvider provider) {
    this.provider = provider;
  }

  @Override
  protected void engineSetMode(String mode) throws NoSuchAlgorithmException {
    if (!mode.equalsIgnoreCase("CBC")) {
      throw new NoSuchAlgorithmException("there is no mode " + mode + " of key wrap");
    }
  }

  @Override
  protected void engineSetPadding(String padding) throws NoSuchPaddingException {
    if (!padding.equalsIgnoreCase("NoPadding")) {
      throw new NoSuchPaddingException("there is no padding " + padding + " of key wrap");
    }
  }

  @Override
  protected int engineGetBlockSize() {
    return Native.BLOCK_SIZE;
  }

  @Override
  protected int engineGetKeySize(Key key) throws InvalidKeyException {
    return Algorithm.DESEDE.bits(key);
  }

  @Override
  protected int engineGetOutputSize(int length) {
    return unwraps ? Math.max(0, length - ADDED) : Math.addExact(length, ADDED);
  }

  @Override
  protected byte[] engineGetIV() {
    return vector == null ? null : vector.clone();
  }

  @Override
  protected AlgorithmParameters engineGetParameters() {
    return vector == null ? null : Vectors.parameters(vector, Algorithm.DESEDE, provider);
  }

  @Override
  protected void engineInit(int opmode, Key key, SecureRandom random) throws InvalidKeyException {
    try {
      engineInit(opmode, key, (AlgorithmParameterSpec) null, random);
    } catch (InvalidAlgorithmParameterException error) {
      throw new InvalidKeyException(error.getMessage());
    }
  }

  @Override
  protected void engineInit(int opmode, Key key, AlgorithmParameters parameters, SecureRandom random)
      throws InvalidKeyException, InvalidAlgorithmParameterException {
    engineInit(opmode, key, Vectors.specOf(parameters), random);
  }

  @Override
  protected synchronized void engineInit(int opmode, Key key, AlgorithmParameterSpec parameters, SecureRandom random)
      throws InvalidKeyException, InvalidAlgorithmParameterException {
    boolean isInverse = opmode == Cipher.UNWRAP_MODE;
    if (!isInverse && opmode != Cipher.WRAP_MODE) {
      throw new UnsupportedOperationException("the cipher wraps and unwraps keys only");
    }
    if (isInverse && parameters != null) {
      throw new InvalidAlgorithmParameterException("unwrapping takes no parameters");
    }
    byte[] given = Vectors.of(parameters);
    byte[] bytes = Algorithm.DESEDE.bytesOf(key);
    Arrays.fill(protection, (byte) 0);
    protection = bytes;
    unwraps = isInverse;
    vector = isInverse || given != null ? given : Vectors.random(random);
  }

  @Override
  protected synchronized byte[] engineWrap(Key key) throws IllegalBlockSizeException, InvalidKeyException {
    byte[] bytes = EncodedKeys.of(key);
    byte[] wrapped = new byte[Math.addExact(bytes.length, ADDED)];
    int status = Native.cmsWrapKey(protection, vector, bytes, wrapped, new long[1]);
    Arrays.fill(bytes, (byte) 0);
    if (status != 0) {
      throw new IllegalBlockSizeException(Status.of(status).sentence());
    }
    return wrapped;
  }

  @Override
  protected synchronized Key engineUnwrap(byte[] wrapped, String name, int type)
      throws InvalidKeyException, NoSuchAlgorithmException {
    byte[] bytes = new byte[Math.max(0, wrapped.length - ADDED)];
    int status = Native.cmsUnwrapKey(protection, wrapped, bytes, new long[1]);
    if (status != 0) {
      throw new InvalidKeyException(Status.of(status).sentence());
    }
    return EncodedKeys.unwrapped(bytes, name, type);
  }

  // -- What Cipher never calls in these modes --

  private static IllegalStateException takesNoBytes() {
    return new IllegalStateException("the cipher wraps and unwraps keys only");
  }

  @Override
  protected byte[] engineUpdate(byte[] input, int offset, int length) {
    throw takesNoBytes();
  }

  @Override
  protected int engineUpdate(byte[] input, int offset, int length, byte[] output, int at) {
    throw takesNoBytes();
  }

  @Override
  protected byte[] engineDoFinal(byte[] input, int offset, int length) {
    throw takesNoBytes();
  }

  @Override
  protected int engineDoFinal(byte[] input, int offset, int length, byte[] output, int at) {
    throw takesNoBytes();
  }
}
