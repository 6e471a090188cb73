package cukvashe.des;

/** Which message of a transaction a key is for. */
public enum Direction {
  /** From the terminal to the host. */
  REQUEST,
  /** From the host to the terminal. */
  RESPONSE;

  boolean isResponse() {
    return this == RESPONSE;
  }
}
