package cukvashe.des;

import java.nio.ByteBuffer;
import java.security.InvalidAlgorithmParameterException;
import java.security.InvalidKeyException;
import java.security.Key;
import java.security.spec.AlgorithmParameterSpec;
import java.util.Arrays;
import javax.crypto.MacSpi;

/** A MAC. Bytes are collected, so that a short message takes one call of C. */
final class DesMac extends MacSpi implements Cloneable {
  private static final int MOST_COLLECTED = 1024;

  private final MacAlgorithm algorithm;
  private final boolean readsTables;
  private int number;

  /** The contexts of the key: with an empty message, and with the one so far but for what is collected. */
  private long[] empty;

  private long[] context;
  private byte[] collected = new byte[64];
  private int count;

  DesMac(CukvasheProvider provider, MacAlgorithm algorithm) {
    this.algorithm = algorithm;
    this.readsTables = provider.readsTables();
  }

  @Override
  protected int engineGetMacLength() {
    return Native.TAG_SIZE;
  }

  @Override
  protected void engineInit(Key key, AlgorithmParameterSpec parameters)
      throws InvalidKeyException, InvalidAlgorithmParameterException {
    if (parameters != null) {
      throw new InvalidAlgorithmParameterException("the MAC takes no parameters");
    }
    if (key == null) {
      throw new InvalidKeyException("no key is given");
    }
    byte[] bytes = Algorithm.rawOf(key);
    if (algorithm.number(24) < 0) {
      bytes = Secret.withoutThirdPart(bytes);
    }
    try {
      long[] made = algorithm.context(bytes, readsTables);
      wipe();
      number = algorithm.number(bytes.length);
      empty = made;
      context = made.clone();
      engineReset();
    } finally {
      Arrays.fill(bytes, (byte) 0);
    }
  }

  private void wipe() {
    if (empty != null) {
      Arrays.fill(empty, 0);
      Arrays.fill(context, 0);
    }
  }

  private void flush() {
    Native.macUpdate(number, context, collected, 0, count);
    count = 0;
  }

  private void grow(int least) {
    byte[] old = collected;
    collected = Arrays.copyOf(old, Math.min(MOST_COLLECTED, Math.max(least, 2 * old.length)));
    Arrays.fill(old, (byte) 0);
  }

  @Override
  protected void engineUpdate(byte input) {
    if (count == MOST_COLLECTED) {
      flush();
    }
    if (count == collected.length) {
      grow(count + 1);
    }
    collected[count++] = input;
  }

  @Override
  protected void engineUpdate(byte[] input, int offset, int length) {
    if (length > MOST_COLLECTED - count) {
      flush();
      if (length > MOST_COLLECTED) {
        Native.macUpdate(number, context, input, offset, length);
        return;
      }
    }
    if (count + length > collected.length) {
      grow(count + length);
    }
    System.arraycopy(input, offset, collected, count, length);
    count += length;
  }

  @Override
  protected void engineUpdate(ByteBuffer input) {
    if (input.hasArray()) {
      engineUpdate(input.array(), input.arrayOffset() + input.position(), input.remaining());
      input.position(input.limit());
      return;
    }
    byte[] copy = new byte[Math.min(input.remaining(), 8 * MOST_COLLECTED)];
    while (input.hasRemaining()) {
      int size = Math.min(copy.length, input.remaining());
      input.get(copy, 0, size);
      engineUpdate(copy, 0, size);
    }
    Arrays.fill(copy, (byte) 0);
  }

  @Override
  protected byte[] engineDoFinal() {
    long tag = Native.macFinal(number, context, collected, count);
    engineReset();
    return ByteBuffer.allocate(Native.TAG_SIZE).putLong(tag).array();
  }

  @Override
  protected void engineReset() {
    if (empty != null) {
      System.arraycopy(empty, 0, context, 0, empty.length);
    }
    Arrays.fill(collected, (byte) 0);
    count = 0;
  }

  @Override
  public Object clone() throws CloneNotSupportedException {
    DesMac copy = (DesMac) super.clone();
    copy.collected = collected.clone();
    if (empty != null) {
      copy.empty = empty.clone();
      copy.context = context.clone();
    }
    return copy;
  }
}
