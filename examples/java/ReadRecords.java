import cukvashe.des.Keys;
import cukvashe.des.Padding;
import cukvashe.des.Records;
import java.nio.charset.StandardCharsets;
import java.nio.file.Files;
import java.nio.file.Path;
import java.util.Arrays;
import java.util.HexFormat;
import java.util.List;
import javax.crypto.SecretKey;

/**
 * Decrypts a column of records of a CSV table in one call: triple DES with three keys in CBC mode, padded by PKCS#7.
 * ReadRecords KEY TABLE: KEY is a file of 48 hexadecimal digits, since on the command line every user could read them.
 */
public class ReadRecords {
  public static void main(String[] arguments) throws Exception {
    HexFormat hex = HexFormat.of();
    SecretKey key = Keys.of(hex.parseHex(Files.readString(Path.of(arguments[0])).strip()));
    List<String> lines = Files.readAllLines(Path.of(arguments[1]));
    List<String> rows = lines.subList(1, lines.size());

    // All vectors, all records, and how many blocks of 8 bytes each record has.
    StringBuilder vectors = new StringBuilder();
    StringBuilder records = new StringBuilder();
    long[] counts = new long[rows.size()];
    for (int at = 0; at < counts.length; at++) {
      String[] fields = rows.get(at).split(",");
      vectors.append(fields[1]);
      records.append(fields[2]);
      counts[at] = fields[2].length() / 16;
    }
    byte[] plain = Records.decryptCbc(key, hex.parseHex(records), hex.parseHex(vectors), counts);
    key.destroy();

    int begin = 0;
    for (int at = 0; at < counts.length; at++) {
      int end = begin + 8 * (int) counts[at];
      byte[] text = Padding.PKCS7.unpad(Arrays.copyOfRange(plain, begin, end));
      System.out.println(rows.get(at).split(",")[0] + " " + new String(text, StandardCharsets.UTF_8));
      begin = end;
    }
  }
}

// NIST SP 800-67, Appendix B, has the key. OpenSSL encrypted the records: see examples/data/by_openssl.
// $ java -cp bindings/java/out/cukvashe-des.jar examples/java/ReadRecords.java examples/data/key examples/data/records.csv
// 1 The qufck brown fox jump
// 2 Now is the time
// 3 Account 4012345678909: 25.00 paid in
// 4 No
