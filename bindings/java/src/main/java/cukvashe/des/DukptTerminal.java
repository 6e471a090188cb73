package cukvashe.des;

import java.util.Arrays;
import javax.crypto.SecretKey;
import javax.security.auth.Destroyable;

/**
 * The terminal's side of DUKPT (ANSI X9.24-1:2009, A.2 and A.4): the key serial number of the last transaction, and the future keys, which
 * make the keys of all transactions to come. Threads can share one.
 */
public final class DukptTerminal implements Destroyable {
  /** A transaction's key serial number and key, that of {@link Dukpt#transactionKey}, which encrypts nothing itself. */
  public static final class Transaction {
    private final byte[] serial;
    private final SecretKey key;

    private Transaction(byte[] serial, SecretKey key) {
      this.serial = serial;
      this.key = key;
    }

    /** The key serial number, ten bytes. */
    public byte[] serial() {
      return serial.clone();
    }

    /** The key. */
    public SecretKey key() {
      return key;
    }
  }

  private final byte[] state;
  private boolean isDestroyed;

  private DukptTerminal(byte[] state) {
    this.state = state;
  }

  /**
   * A terminal whose first transaction has counter 1.
   *
   * @param initial the initial key (IK, IPEK)
   * @param serial any of the terminal's key serial numbers
   * @throws CukvasheException {@link Status#KEY_LENGTH}
   * @throws IllegalArgumentException if a key serial number does not have 10 bytes
   */
  public static DukptTerminal of(SecretKey initial, byte[] serial) throws CukvasheException {
    Secret.sized(serial, Native.DUKPT_SERIAL_SIZE, "a key serial number");
    byte[] state = new byte[Native.DUKPT_TERMINAL_SIZE];
    try (Secret secret = Secret.key(initial, Native.DUKPT_KEY_SIZE)) {
      Native.dukptTerminalInit(state, secret.bytes, serial);
    }
    return new DukptTerminal(state);
  }

  /**
   * A terminal that goes on from a state that {@link #state} gave.
   *
   * @throws IllegalArgumentException if a state does not have 346 bytes
   */
  public static DukptTerminal ofState(byte[] state) {
    Native.isThere();
    return new DukptTerminal(Secret.sized(state, Native.DUKPT_TERMINAL_SIZE, "the state of a terminal").clone());
  }

  /** The state, which is secret: store it before you use a key, or that is used twice. */
  public synchronized byte[] state() {
    if (isDestroyed) {
      throw new IllegalStateException("the terminal is destroyed");
    }
    return state.clone();
  }

  /**
   * The next transaction, whose key is cleared in the state.
   *
   * @throws CukvasheException {@link Status#NO_SERIAL} after the last, the 1,048,575th
   */
  public synchronized Transaction next() throws CukvasheException {
    if (isDestroyed) {
      throw new IllegalStateException("the terminal is destroyed");
    }
    byte[] serial = new byte[Native.DUKPT_SERIAL_SIZE];
    try (Secret made = Secret.buffer(Native.DUKPT_KEY_SIZE)) {
      CukvasheException.check(Native.dukptTerminalNextKey(state, serial, made.bytes));
      return new Transaction(serial, made.key());
    }
  }

  @Override
  public synchronized void destroy() {
    Arrays.fill(state, (byte) 0);
    isDestroyed = true;
  }

  @Override
  public synchronized boolean isDestroyed() {
    return isDestroyed;
  }
}
