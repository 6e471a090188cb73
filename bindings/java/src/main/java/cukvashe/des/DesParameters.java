package cukvashe.des;

import java.io.IOException;
import java.security.AlgorithmParametersSpi;
import java.security.spec.AlgorithmParameterSpec;
import java.security.spec.InvalidParameterSpecException;
import java.util.Arrays;
import javax.crypto.spec.IvParameterSpec;

/** An initialization vector; encoded, an OCTET STRING of DER. */
final class DesParameters extends AlgorithmParametersSpi {
  private static final int OCTET_STRING = 4;
  private static final int BLOCK = Native.BLOCK_SIZE;

  private byte[] iv;

  @Override
  protected void engineInit(AlgorithmParameterSpec spec) throws InvalidParameterSpecException {
    byte[] bytes = spec instanceof IvParameterSpec ? ((IvParameterSpec) spec).getIV() : new byte[0];
    if (bytes.length != BLOCK) {
      throw new InvalidParameterSpecException("the parameters are not an IvParameterSpec of " + BLOCK + " bytes");
    }
    iv = bytes;
  }

  @Override
  protected void engineInit(byte[] encoded) throws IOException {
    if (encoded.length != 2 + BLOCK || encoded[0] != OCTET_STRING || encoded[1] != BLOCK) {
      throw new IOException("the parameters are not an OCTET STRING of " + BLOCK + " bytes");
    }
    iv = Arrays.copyOfRange(encoded, 2, 2 + BLOCK);
  }

  @Override
  protected void engineInit(byte[] encoded, String format) throws IOException {
    engineInit(encoded);
  }

  @Override
  protected <T extends AlgorithmParameterSpec> T engineGetParameterSpec(Class<T> wanted) throws InvalidParameterSpecException {
    if (!wanted.isAssignableFrom(IvParameterSpec.class)) {
      throw new InvalidParameterSpecException("the parameters are an IvParameterSpec");
    }
    return wanted.cast(new IvParameterSpec(iv));
  }

  @Override
  protected byte[] engineGetEncoded() {
    byte[] encoded = new byte[2 + BLOCK];
    encoded[0] = OCTET_STRING;
    encoded[1] = (byte) BLOCK;
    System.arraycopy(iv, 0, encoded, 2, BLOCK);
    return encoded;
  }

  @Override
  protected byte[] engineGetEncoded(String format) {
    return engineGetEncoded();
  }

  @Override
  protected String engineToString() {
    return "an initialization vector";
  }
}
