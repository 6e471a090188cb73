package cukvashe.des;

import java.security.GeneralSecurityException;

/** What a call refuses. Its text shows no value that was given. */
public final class CukvasheException extends GeneralSecurityException {
  private static final long serialVersionUID = 1L;

  private final Status status;

  CukvasheException(Status status) {
    super(status.sentence());
    this.status = status;
  }

  /** What is wrong. Of two faults the one that the call names first. */
  public Status status() {
    return status;
  }

  static void check(int status) throws CukvasheException {
    if (status != 0) {
      throw new CukvasheException(Status.of(status));
    }
  }
}
