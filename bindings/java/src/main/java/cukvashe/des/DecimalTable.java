package cukvashe.des;

/** A decimalization table. An attacker who chooses the table finds PINs out. */
public final class DecimalTable {
  final byte[] digits;

  private DecimalTable(byte[] digits) {
    this.digits = digits;
  }

  /**
   * The table of sixteen decimal digits, those that stand for 0 to 15 in this order.
   *
   * @throws CukvasheException {@link Status#TABLE_LENGTH}, {@link Status#TABLE_DIGIT}; {@link Status#TABLE_VARIETY} for fewer than eight
   *     different ones
   */
  public static DecimalTable of(String digits) throws CukvasheException {
    Native.isThere();
    byte[] table = new byte[Native.DECIMAL_TABLE_SIZE];
    CukvasheException.check(Native.decimalTableInit(table, Secret.text(digits)));
    return new DecimalTable(table);
  }

  /**
   * A table of any variety, for old systems that have one.
   *
   * @throws CukvasheException {@link Status#TABLE_LENGTH}, {@link Status#TABLE_DIGIT}
   */
  public static DecimalTable ofAnyVariety(String digits) throws CukvasheException {
    Native.isThere();
    byte[] table = new byte[Native.DECIMAL_TABLE_SIZE];
    CukvasheException.check(Native.decimalTableInitAny(table, Secret.text(digits)));
    return new DecimalTable(table);
  }
}
