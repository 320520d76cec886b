package mungo.lib;

import java.io.ByteArrayOutputStream;
import java.io.EOFException;
import java.io.IOException;
import java.nio.ByteBuffer;
import java.nio.charset.StandardCharsets;
import java.security.GeneralSecurityException;
import java.security.MessageDigest;
import java.security.SecureRandom;
import java.util.Arrays;
import javax.crypto.Mac;
import javax.crypto.spec.SecretKeySpec;

/**
 * What a connection of two roles begins with. Without a secret the caller says `mungo 1` and both names. With one it
 * says `mungo 2`, both names and a random number; the other side answers with a random number of its own and a proof,
 * and the caller with its proof. A proof is the HMAC-SHA-256, by the secret, of whose it is, both names and both
 * numbers. Behind the greeting a line by TLS has the other side's word that it takes the caller: by TLS 1.3 the caller has
 * ended the handshake before its certificate is judged.
 */
final class Greeting {
    private static final byte[] PLAIN = "mungo 1\n".getBytes(StandardCharsets.US_ASCII);
    private static final byte[] KEYED = "mungo 2\n".getBytes(StandardCharsets.US_ASCII);
    private static final byte[] TAKEN = "taken\n".getBytes(StandardCharsets.US_ASCII);
    private static final int LONGEST_NAME = 255;
    private static final int NUMBER = 16;
    private static final int PROOF = 32;
    private static final SecureRandom RANDOM = new SecureRandom();

    private final byte[] secret;

    /** The other side isn't the role that it should be. */
    static final class Stranger extends IOException {
        private static final long serialVersionUID = 1;

        /** As whom it has named itself, or null. */
        final String name;

        Stranger(String name, String why) {
            super(why);
            this.name = name;
        }
    }

    /** Greetings by this secret, or without one where it is null. */
    Greeting(byte[] secret) {
        this.secret = secret;
    }

    /** Greets as the one that has connected. Throws Stranger where the peer hasn't the secret. */
    void call(Connection line, String me, String peer, long until) throws IOException {
        byte[] names = joined(told(me), told(peer));
        if (secret == null) {
            line.write(joined(PLAIN, names), until);
            return;
        }
        byte[] mine = number();
        line.write(joined(KEYED, names, mine), until);
        try {
            byte[] theirs = line.read(NUMBER, until);
            expect(line.read(PROOF, until), proof("answer", names, mine, theirs), peer);
            line.write(proof("call", names, mine, theirs), until);
        } catch (EOFException ended) {
            throw new Stranger(peer, "it ended at the greeting, and may have another secret");
        }
    }

    /**
     * Greets one that has connected to this role, and gives its name. Throws Stranger where it isn't a role that means
     * this one.
     */
    String answer(Connection line, String me, long until) throws IOException {
        if (!Arrays.equals(line.read(PLAIN.length, until), secret == null ? PLAIN : KEYED)) {
            throw new Stranger(null, "its first words aren't those of a role");
        }
        String peer = name(line, until);
        if (!name(line, until).equals(me)) {
            throw new Stranger(null, "it means another role");
        }
        if (secret != null) {
            byte[] names = joined(told(peer), told(me));
            byte[] theirs = line.read(NUMBER, until);
            byte[] mine = number();
            line.write(joined(mine, proof("answer", names, theirs, mine)), until);
            try {
                expect(line.read(PROOF, until), proof("call", names, theirs, mine), peer);
            } catch (EOFException ended) {
                throw new Stranger(peer, "it ended at the greeting, and may have another secret");
            }
        }
        return peer;
    }

    /** Tells the caller, by TLS, that it is taken. */
    void take(Connection line, long until) throws IOException {
        line.write(TAKEN, until);
    }

    /** Waits, by TLS, for the word that this role is taken. */
    void await(Connection line, String peer, long until) throws IOException {
        try {
            if (!Arrays.equals(line.read(TAKEN.length, until), TAKEN)) {
                throw new Stranger(peer, "its words behind the greeting aren't those of a role");
            }
        } catch (EOFException ended) {
            throw new Stranger(peer, "it ended at the greeting, and may have another name for the host of this role");
        }
    }

    private static void expect(byte[] given, byte[] wanted, String peer) throws Stranger {
        if (!MessageDigest.isEqual(given, wanted)) {
            throw new Stranger(peer, "it has another secret");
        }
    }

    private byte[] proof(String whose, byte[] names, byte[] called, byte[] answered) throws IOException {
        try {
            Mac mac = Mac.getInstance("HmacSHA256");
            mac.init(new SecretKeySpec(secret, "HmacSHA256"));
            return mac.doFinal(joined(told(whose), names, called, answered));
        } catch (GeneralSecurityException none) {
            throw new IOException("this virtual machine has no HMAC-SHA-256", none);
        }
    }

    private static byte[] number() {
        byte[] number = new byte[NUMBER];
        RANDOM.nextBytes(number);
        return number;
    }

    /** A name, with its length in four bytes before it. */
    private static byte[] told(String name) {
        byte[] bytes = name.getBytes(StandardCharsets.UTF_8);
        return joined(ByteBuffer.allocate(4).putInt(bytes.length).array(), bytes);
    }

    private static String name(Connection line, long until) throws IOException {
        int length = ByteBuffer.wrap(line.read(4, until)).getInt();
        if (length < 0 || length > LONGEST_NAME) {
            throw new Stranger(null, "a name has " + length + " bytes");
        }
        return new String(line.read(length, until), StandardCharsets.UTF_8);
    }

    private static byte[] joined(byte[]... parts) {
        ByteArrayOutputStream all = new ByteArrayOutputStream();
        for (byte[] part : parts) {
            all.write(part, 0, part.length);
        }
        return all.toByteArray();
    }
}
