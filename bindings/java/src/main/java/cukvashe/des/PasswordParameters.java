package cukvashe.des;

import java.io.ByteArrayOutputStream;
import java.io.IOException;
import java.math.BigInteger;
import java.nio.BufferUnderflowException;
import java.nio.ByteBuffer;
import java.security.AlgorithmParametersSpi;
import java.security.spec.AlgorithmParameterSpec;
import java.security.spec.InvalidParameterSpecException;
import javax.crypto.spec.PBEParameterSpec;

/** A salt and a number of iterations; encoded by DER, a SEQUENCE of OCTET STRING and INTEGER (RFC 8018, A.3; RFC 7292, appendix C). */
final class PasswordParameters extends AlgorithmParametersSpi {
  private static final int SEQUENCE = 0x30;
  private static final int OCTET_STRING = 4;
  private static final int INTEGER = 2;

  private PBEParameterSpec spec;

  @Override
  protected void engineInit(AlgorithmParameterSpec given) throws InvalidParameterSpecException {
    if (!(given instanceof PBEParameterSpec)) {
      throw new InvalidParameterSpecException("the parameters are not a PBEParameterSpec");
    }
    spec = (PBEParameterSpec) given;
  }

  @Override
  protected void engineInit(byte[] encoded) throws IOException {
    try {
      ByteBuffer all = ByteBuffer.wrap(encoded);
      ByteBuffer fields = ByteBuffer.wrap(contents(all, SEQUENCE));
      byte[] salt = contents(fields, OCTET_STRING);
      int iterations = new BigInteger(contents(fields, INTEGER)).intValueExact();
      if (all.hasRemaining() || fields.hasRemaining()) {
        throw new IOException("bytes follow the parameters");
      }
      spec = new PBEParameterSpec(salt, iterations);
    } catch (BufferUnderflowException | ArithmeticException | NumberFormatException error) {
      throw new IOException("the parameters are not a salt and a number of iterations", error);
    }
  }

  @Override
  protected void engineInit(byte[] encoded, String format) throws IOException {
    engineInit(encoded);
  }

  @Override
  protected <T extends AlgorithmParameterSpec> T engineGetParameterSpec(Class<T> wanted) throws InvalidParameterSpecException {
    if (!wanted.isAssignableFrom(PBEParameterSpec.class)) {
      throw new InvalidParameterSpecException("the parameters are a PBEParameterSpec");
    }
    return wanted.cast(spec);
  }

  @Override
  protected byte[] engineGetEncoded() {
    ByteArrayOutputStream fields = new ByteArrayOutputStream();
    add(fields, OCTET_STRING, spec.getSalt());
    add(fields, INTEGER, BigInteger.valueOf(spec.getIterationCount()).toByteArray());
    ByteArrayOutputStream all = new ByteArrayOutputStream();
    add(all, SEQUENCE, fields.toByteArray());
    return all.toByteArray();
  }

  @Override
  protected byte[] engineGetEncoded(String format) {
    return engineGetEncoded();
  }

  @Override
  protected String engineToString() {
    return "a salt and a number of iterations";
  }

  private static void add(ByteArrayOutputStream output, int tag, byte[] contents) {
    output.write(tag);
    if (contents.length < 128) {
      output.write(contents.length);
    } else {
      byte[] length = BigInteger.valueOf(contents.length).toByteArray();
      int zeros = length[0] == 0 ? 1 : 0;
      output.write(128 + length.length - zeros);
      output.write(length, zeros, length.length - zeros);
    }
    output.write(contents, 0, contents.length);
  }

  /** What stands in the element that comes next, which has this tag. */
  private static byte[] contents(ByteBuffer input, int tag) throws IOException {
    if (input.get() != tag) {
      throw new IOException("the parameters are not a salt and a number of iterations");
    }
    int length = input.get() & 255;
    if (length >= 128) {
      byte[] bytes = new byte[length - 128];
      input.get(bytes);
      length = new BigInteger(1, bytes).intValueExact();
    }
    if (length > input.remaining()) {
      throw new BufferUnderflowException();
    }
    byte[] contents = new byte[length];
    input.get(contents);
    return contents;
  }
}
