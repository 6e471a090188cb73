package cukvashe.des;

/** The formats of PIN blocks (ISO 9564-1) that are translated. */
public enum PinFormat {
  /** Format 0, with the account number. */
  ISO_0(0),
  /** Format 1, with transaction digits. */
  ISO_1(1),
  /** Format 3, with the account number and random fill digits. */
  ISO_3(3);

  final int number;

  PinFormat(int number) {
    this.number = number;
  }
}
