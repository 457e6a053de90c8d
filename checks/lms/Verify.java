import java.io.BufferedReader;
import java.io.InputStreamReader;
import org.bouncycastle.pqc.crypto.lms.LMSPublicKeyParameters;
import org.bouncycastle.pqc.crypto.lms.LMSSigner;

/** Reads lines with a public key, a message and a signature in hex. Prints for each whether Bouncy Castle accepts it. */
public final class Verify {
    public static void main(String[] arguments) throws Exception {
        BufferedReader lines = new BufferedReader(new InputStreamReader(System.in));
        for (String line = lines.readLine(); line != null; line = lines.readLine()) {
            String[] words = line.split(" ", -1);
            System.out.println(isValid(unhex(words[0]), unhex(words[1]), unhex(words[2])) ? "valid" : "invalid");
        }
    }

    private static boolean isValid(byte[] key, byte[] message, byte[] signature) {
        try {
            LMSSigner checker = new LMSSigner();
            checker.init(false, LMSPublicKeyParameters.getInstance(key));
            return checker.verifySignature(message, signature);
        } catch (Exception fault) {
            return false;
        }
    }

    private static byte[] unhex(String text) {
        byte[] octets = new byte[text.length() / 2];
        for (int at = 0; at < octets.length; at++) {
            octets[at] = (byte) Integer.parseInt(text.substring(2 * at, 2 * at + 2), 16);
        }
        return octets;
    }
}
