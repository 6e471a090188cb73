import cukvashe.des.CukvasheProvider;
import java.security.Provider;
import java.security.Security;
import java.util.Arrays;
import java.util.Random;
import java.util.TreeSet;
import javax.crypto.Cipher;
import javax.crypto.spec.IvParameterSpec;
import javax.crypto.spec.SecretKeySpec;
import org.bouncycastle.jce.provider.BouncyCastleProvider;

/**
 * An update within one array, for each number of pending bytes and each distance of output from input: how often each provider's answer is
 * not the one for separate arrays. Ours must never differ.
 */
public final class Overlap {
  public static void main(String[] arguments) throws Exception {
    byte[] bytes = new byte[24];
    new Random(1).nextBytes(bytes);
    SecretKeySpec key = new SecretKeySpec(bytes, "DESede");
    for (Provider provider : new Provider[] {Security.getProvider("SunJCE"), new BouncyCastleProvider(), new CukvasheProvider()}) {
      for (String padding : new String[] {"NoPadding", "PKCS5Padding"}) {
        int wrong = 0;
        int cases = 0;
        TreeSet<String> where = new TreeSet<>();
        for (int mode : new int[] {Cipher.ENCRYPT_MODE, Cipher.DECRYPT_MODE}) {
          for (int pending = 0; pending < 16; pending++) {
            for (int shift = -40; shift <= 40; shift++) {
              byte[] text = new byte[160];
              new Random(pending).nextBytes(text);
              Cipher apart = Cipher.getInstance("DESede/CBC/" + padding, provider);
              Cipher within = Cipher.getInstance("DESede/CBC/" + padding, provider);
              apart.init(mode, key, new IvParameterSpec(new byte[8]));
              within.init(mode, key, new IvParameterSpec(new byte[8]));
              apart.update(text, 0, pending);
              within.update(text, 0, pending);
              byte[] right = apart.update(text, pending, 100);
              byte[] memory = new byte[260];
              System.arraycopy(text, pending, memory, 60, 100);
              int size = within.update(memory, 60, 100, memory, 60 + shift);
              cases++;
              if (!Arrays.equals(right, Arrays.copyOfRange(memory, 60 + shift, 60 + shift + size))) {
                wrong++;
                where.add("mode " + mode + ", pending " + pending + ", shift " + shift);
              }
            }
          }
        }
        String first = wrong == 0 ? "" : ", as " + where.first();
        System.out.printf("%s, CBC, %s: %d of %d wrong%s%n", provider.getName(), padding, wrong, cases, first);
        if (wrong != 0 && provider instanceof CukvasheProvider) {
          System.exit(1);
        }
      }
    }
  }
}
