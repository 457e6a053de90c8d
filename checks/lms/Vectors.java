import java.nio.charset.StandardCharsets;
import java.security.MessageDigest;
import java.util.Arrays;
import org.bouncycastle.pqc.crypto.lms.LMOtsParameters;
import org.bouncycastle.pqc.crypto.lms.LMSPrivateKeyParameters;
import org.bouncycastle.pqc.crypto.lms.LMSSigner;
import org.bouncycastle.pqc.crypto.lms.LMSigParameters;

/**
 * Makes LMS keys (RFC 8554) from an I and a SEED with Bouncy Castle. Prints each public key, and for signatures
 * at several slots the length, the SHA-256 of the whole, and whether they verify.
 *
 * Bouncy Castle makes the randomiser C of a slot from the seed as this repository does, so that
 * whole signatures are equal.
 */
public final class Vectors {
    private static final LMOtsParameters ONE_TIME = LMOtsParameters.sha256_n32_w8;

    public static void main(String[] arguments) throws Exception {
        byte[] zeros = new byte[48];
        // RFC 8554, Appendix F, test case 2: the key of the second level, LMS_SHA256_M32_H5 with
        // LMOTS_SHA256_N32_W8. The RFC prints its public key.
        byte[] standard = unhex("215f83b7ccb9acbcd08db97b0d04dc2b"
                + "a1c4696e2608035a886100d05cd99945eb3370731884a8235e2fb3d4d71f2547");
        for (byte[] secret : new byte[][] {zeros, standard}) {
            print("H5", LMSigParameters.lms_sha256_n32_h5, secret, new int[] {0, 1, 17, 31});
            print("H10", LMSigParameters.lms_sha256_n32_h10, secret, new int[] {0, 1, 512, 1023});
        }
    }

    private static void print(String name, LMSigParameters kind, byte[] secret, int[] slots)
            throws Exception {
        byte[] i = Arrays.copyOfRange(secret, 0, 16);
        byte[] seed = Arrays.copyOfRange(secret, 16, 48);
        LMSPrivateKeyParameters key = key(kind, i, seed, 0);
        System.out.println(name + " secret " + hex(secret));
        System.out.println("  public " + hex(key.getPublicKey().getEncoded()));
        for (int slot : slots) {
            for (String text : new String[] {"", "abc"}) {
                byte[] octets = text.getBytes(StandardCharsets.US_ASCII);
                LMSSigner signer = new LMSSigner();
                signer.init(true, key(kind, i, seed, slot));
                byte[] signature = signer.generateSignature(octets);
                LMSSigner checker = new LMSSigner();
                checker.init(false, key.getPublicKey());
                System.out.println("  slot " + slot + " text '" + text + "' octets " + signature.length
                        + " sha256 " + hex(MessageDigest.getInstance("SHA-256").digest(signature))
                        + " verifies " + checker.verifySignature(octets, signature));
            }
        }
    }

    private static LMSPrivateKeyParameters key(LMSigParameters kind, byte[] i, byte[] seed, int slot) {
        int leaves = 1 << kind.getH();
        byte[] encoded = java.nio.ByteBuffer.allocate(4 + 4 + 4 + 16 + 4 + 4 + 4 + 32)
                .putInt(0).putInt(kind.getType()).putInt(ONE_TIME.getType()).put(i)
                .putInt(slot).putInt(leaves).putInt(32).put(seed).array();
        try {
            return LMSPrivateKeyParameters.getInstance(encoded);
        } catch (java.io.IOException fault) {
            throw new IllegalStateException(fault);
        }
    }

    private static byte[] unhex(String text) {
        byte[] octets = new byte[text.length() / 2];
        for (int at = 0; at < octets.length; at++) {
            octets[at] = (byte) Integer.parseInt(text.substring(2 * at, 2 * at + 2), 16);
        }
        return octets;
    }

    private static String hex(byte[] octets) {
        StringBuilder text = new StringBuilder();
        for (byte octet : octets) {
            text.append(String.format("%02x", octet));
        }
        return text.toString();
    }
}
