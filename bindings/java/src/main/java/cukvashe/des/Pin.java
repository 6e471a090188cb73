package cukvashe.des;

import java.security.MessageDigest;
import java.util.Arrays;
import javax.security.auth.Destroyable;

/** A PIN. {@link #destroy} overwrites its digits, and no other call shows them but {@link #digits}. */
public final class Pin implements Destroyable {
  private final byte[] digits;
  private boolean isDestroyed;

  Pin(byte[] digits) {
    this.digits = digits;
  }

  /** The PIN of characters, of which a copy is made. The calls that take it look at what they are. */
  public static Pin of(char[] digits) {
    byte[] bytes = new byte[digits.length];
    for (int at = 0; at < bytes.length; at++) {
      bytes[at] = (byte) Math.min(digits[at], 255);
    }
    return new Pin(bytes);
  }

  /** A copy of the digits, which you overwrite after use. */
  public synchronized char[] digits() {
    byte[] bytes = bytes();
    char[] copy = new char[bytes.length];
    for (int at = 0; at < copy.length; at++) {
      copy[at] = (char) (bytes[at] & 255);
    }
    Arrays.fill(bytes, (byte) 0);
    return copy;
  }

  synchronized byte[] bytes() {
    if (isDestroyed) {
      throw new IllegalStateException("the PIN is destroyed");
    }
    return digits.clone();
  }

  @Override
  public synchronized void destroy() {
    Arrays.fill(digits, (byte) 0);
    isDestroyed = true;
  }

  @Override
  public synchronized boolean isDestroyed() {
    return isDestroyed;
  }

  @Override
  public boolean equals(Object other) {
    if (!(other instanceof Pin)) {
      return false;
    }
    byte[] ours = bytes();
    byte[] theirs = ((Pin) other).bytes();
    boolean isEqual = MessageDigest.isEqual(ours, theirs);
    Arrays.fill(ours, (byte) 0);
    Arrays.fill(theirs, (byte) 0);
    return isEqual;
  }

  /** One number for all PINs, since any other would show something of the digits. */
  @Override
  public int hashCode() {
    return Pin.class.hashCode();
  }

  @Override
  public String toString() {
    return "a PIN";
  }
}
