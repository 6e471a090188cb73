package cukvashe.des;

import java.io.InvalidObjectException;
import java.io.ObjectInputStream;
import java.security.KeyRep;
import java.security.MessageDigest;
import java.util.Arrays;
import javax.crypto.SecretKey;
import javax.crypto.spec.SecretKeySpec;

/** A key of DES or triple DES, or a password. {@link #destroy} overwrites its bytes. */
final class DesKey implements SecretKey {
  private static final long serialVersionUID = 1L;

  private final String algorithm;
  private final transient byte[] bytes;
  private transient boolean isDestroyed;

  /** Takes the array itself. */
  DesKey(String algorithm, byte[] bytes) {
    this.algorithm = algorithm;
    this.bytes = bytes;
  }

  /** A key of these bytes, with odd parity, as factories and generators make it. */
  static DesKey withOddParity(String algorithm, byte[] bytes) {
    Native.setOddParity(bytes);
    return new DesKey(algorithm, bytes);
  }

  @Override
  public String getAlgorithm() {
    return algorithm;
  }

  @Override
  public String getFormat() {
    return "RAW";
  }

  @Override
  public synchronized byte[] getEncoded() {
    if (isDestroyed) {
      throw new IllegalStateException("the key is destroyed");
    }
    return bytes.clone();
  }

  @Override
  public synchronized void destroy() {
    Arrays.fill(bytes, (byte) 0);
    isDestroyed = true;
  }

  @Override
  public synchronized boolean isDestroyed() {
    return isDestroyed;
  }

  /** Whether a name is that of the algorithm: DESede has two. */
  private boolean isNamed(String name) {
    return algorithm.equalsIgnoreCase(name) || algorithm.equals(Algorithm.DESEDE.title) && Algorithm.DESEDE.isNamed(name);
  }

  @Override
  public boolean equals(Object other) {
    if (this == other) {
      return true;
    }
    if (!(other instanceof SecretKey) || !isNamed(((SecretKey) other).getAlgorithm())) {
      return false;
    }
    byte[] ours = getEncoded();
    byte[] theirs = ((SecretKey) other).getEncoded();
    boolean isEqual = MessageDigest.isEqual(ours, theirs);
    Arrays.fill(ours, (byte) 0);
    if (theirs != null) {
      Arrays.fill(theirs, (byte) 0);
    }
    return isEqual;
  }

  /** That of SecretKeySpec, whose keys can be equal to this one. It takes no empty password. */
  @Override
  public synchronized int hashCode() {
    return bytes.length == 0 ? algorithm.hashCode() : new SecretKeySpec(bytes, algorithm).hashCode();
  }

  /** Not its bytes. */
  @Override
  public String toString() {
    return "a key of " + algorithm;
  }

  private Object writeReplace() {
    return new KeyRep(KeyRep.Type.SECRET, algorithm, "RAW", getEncoded());
  }

  private void readObject(ObjectInputStream stream) throws InvalidObjectException {
    throw new InvalidObjectException("a key is read as a KeyRep");
  }
}
