package cukvashe.des;

import java.util.Arrays;
import javax.crypto.SecretKey;

/** The MACs of many messages in one call. A single message is authenticated by {@link javax.crypto.Mac}. No call reads tables. */
public final class Macs {
  private Macs() {}

  /**
   * The tags, of 8 bytes each, of messages under one key.
   *
   * @throws CukvasheException {@link Status#KEY_LENGTH}
   */
  public static byte[] tags(MacAlgorithm algorithm, SecretKey key, byte[]... messages) throws CukvasheException {
    try (Secret secret = Secret.key(key, algorithm.sizes())) {
      return run(algorithm, algorithm.number(secret.bytes.length), false, secret.bytes, messages);
    }
  }

  /**
   * The tags, of 8 bytes each, of messages each under a key of its own.
   *
   * @param size the bytes of a key
   * @param keys the keys, one after the other
   * @throws CukvasheException {@link Status#KEY_LENGTH} of a size that keys of the algorithm do not have; {@link Status#COUNTS} if there is
   *     not a key for each message
   */
  public static byte[] tagsEach(MacAlgorithm algorithm, int size, byte[] keys, byte[]... messages) throws CukvasheException {
    Native.isThere();
    int number = algorithm.number(size);
    if (number < 0) {
      throw new CukvasheException(Status.KEY_LENGTH);
    }
    return run(algorithm, number, true, keys, messages);
  }

  private static byte[] run(MacAlgorithm algorithm, int number, boolean hasKeys, byte[] keys, byte[]... messages)
      throws CukvasheException {
    long[] lengths = new long[messages.length];
    int total = 0;
    for (int at = 0; at < messages.length; at++) {
      lengths[at] = messages[at].length;
      total = Math.addExact(total, messages[at].length);
    }
    byte[] tags = new byte[Math.multiplyExact(Native.TAG_SIZE, messages.length)];
    byte[] bytes = new byte[total];
    int place = 0;
    for (byte[] message : messages) {
      System.arraycopy(message, 0, bytes, place, message.length);
      place += message.length;
    }
    int status = algorithm.tags(number, hasKeys, keys, bytes, lengths, tags);
    Arrays.fill(bytes, (byte) 0);
    CukvasheException.check(status);
    return tags;
  }
}
