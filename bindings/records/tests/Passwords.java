import java.io.BufferedReader;
import java.io.File;
import java.io.IOException;
import java.io.InputStreamReader;
import java.nio.charset.StandardCharsets;
import java.security.GeneralSecurityException;
import java.security.KeyStore;
import java.security.Provider;
import java.security.Security;
import java.util.HexFormat;
import javax.crypto.BadPaddingException;
import javax.crypto.Cipher;
import javax.crypto.IllegalBlockSizeException;
import javax.crypto.SecretKeyFactory;
import javax.crypto.spec.PBEKeySpec;
import javax.crypto.spec.PBEParameterSpec;
import org.bouncycastle.jce.provider.BouncyCastleProvider;
import org.jasypt.encryption.pbe.StandardPBEByteEncryptor;
import org.jasypt.encryption.pbe.StandardPBEStringEncryptor;
import org.jasypt.encryption.pbe.config.SimplePBEConfig;
import org.jasypt.exceptions.EncryptionOperationNotPossibleException;
import org.jasypt.properties.PropertyValueEncryptionUtils;

/**
 * What Jasypt, the JDK's ciphers and those of Bouncy Castle make of data. A line of standard input says who it is, `encrypt` or `decrypt`,
 * the algorithm, the iterations, and in hexadecimal digits password, salt and data, `-` for none. A line is printed for each: the answer in
 * hexadecimal digits, or `null` if the data were refused. For `store` the data are the name of a key store, and the answer is its key.
 */
final class Passwords {
    private static final HexFormat DIGITS = HexFormat.of();
    private static final Provider SUN = Security.getProvider("SunJCE");
    private static final Provider BOUNCY_CASTLE = new BouncyCastleProvider();

    private Passwords() {}

    public static void main(String[] arguments) throws Exception {
        BufferedReader lines = new BufferedReader(new InputStreamReader(System.in, StandardCharsets.US_ASCII));
        StringBuilder answers = new StringBuilder();
        for (String line = lines.readLine(); line != null; line = lines.readLine()) {
            answers.append(answer(line.split(" "))).append('\n');
        }
        System.out.print(answers);
    }

    private static byte[] bytes(String digits) {
        return DIGITS.parseHex(digits.equals("-") ? "" : digits);
    }

    private static String text(String digits) {
        return new String(bytes(digits), StandardCharsets.UTF_8);
    }

    private static String answer(String[] words) throws GeneralSecurityException, IOException {
        boolean encrypts = words[1].equals("encrypt");
        SimplePBEConfig config = new SimplePBEConfig();
        config.setAlgorithm(words[2]);
        config.setKeyObtentionIterations(Integer.valueOf(words[3]));
        config.setPasswordCharArray(text(words[4]).toCharArray());
        try {
            return DIGITS.formatHex(switch (words[0]) {
                case "bytes" -> bytesOf(config, encrypts, bytes(words[6]));
                case "property" -> propertyOf(config, encrypts, text(words[6])).getBytes(StandardCharsets.UTF_8);
                case "store" -> keyOf(text(words[6]), config.getPasswordCharArray());
                case "jdk" -> bytesOf(SUN, config, encrypts, bytes(words[5]), bytes(words[6]));
                default -> bytesOf(BOUNCY_CASTLE, config, encrypts, bytes(words[5]), bytes(words[6]));
            });
        } catch (EncryptionOperationNotPossibleException | BadPaddingException | IllegalBlockSizeException refused) {
            return "null";
        }
    }

    /** The private key in a store, which is under one password. */
    private static byte[] keyOf(String file, char[] password) throws GeneralSecurityException, IOException {
        return KeyStore.getInstance(new File(file), password).getKey("key", password).getEncoded();
    }

    private static byte[] bytesOf(Provider provider, SimplePBEConfig config, boolean encrypts, byte[] salt, byte[] data)
            throws GeneralSecurityException {
        SecretKeyFactory keys = SecretKeyFactory.getInstance(config.getAlgorithm(), provider);
        Cipher cipher = Cipher.getInstance(config.getAlgorithm(), provider);
        cipher.init(
                encrypts ? Cipher.ENCRYPT_MODE : Cipher.DECRYPT_MODE,
                keys.generateSecret(new PBEKeySpec(config.getPasswordCharArray())),
                new PBEParameterSpec(salt, config.getKeyObtentionIterations()));
        return cipher.doFinal(data);
    }

    private static byte[] bytesOf(SimplePBEConfig config, boolean encrypts, byte[] data) {
        StandardPBEByteEncryptor encryptor = new StandardPBEByteEncryptor();
        encryptor.setConfig(config);
        return encrypts ? encryptor.encrypt(data) : encryptor.decrypt(data);
    }

    /** As in a file of properties: within ENC(..). */
    private static String propertyOf(SimplePBEConfig config, boolean encrypts, String text) {
        StandardPBEStringEncryptor encryptor = new StandardPBEStringEncryptor();
        encryptor.setConfig(config);
        return encrypts ? PropertyValueEncryptionUtils.encrypt(text, encryptor) : PropertyValueEncryptionUtils.decrypt(text, encryptor);
    }
}
