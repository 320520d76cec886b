package mungo.lib;

import java.io.IOException;
import java.net.InetSocketAddress;

/**
 * How a role exchanges messages with one peer. The setting mungo.wire names a wire for a peer that is no role of mungo,
 * as "S=lines:smtp.wire". Nothing here is proved.
 *
 * <p>A wire is used by the thread of its role alone, and is opened before anything else is asked of it. Each call comes
 * back within some limit of the wire.
 */
public interface Wire {
    /**
     * Connects to the peer, or waits for it at the address, which is null where none is known.
     *
     * @throws IOException where the peer isn't there at the moment `deadline` of System.nanoTime
     */
    void open(InetSocketAddress address, long deadline) throws IOException;

    /**
     * Sends a message, whose value is an Integer, a Boolean, a String, or null for none. That the peer has ended is
     * told by the next message that is received, and not here.
     *
     * @throws Unfit where the wire doesn't carry the message: then nothing of it has been sent
     * @throws Mismatch where the wire awaits an answer that is no message, and gets another
     * @throws IOException where the peer doesn't take the message, or such an answer doesn't come
     */
    void send(String label, Object value) throws IOException, Unfit, Mismatch;

    /**
     * The next message of the peer. Which one it is follows from what was sent and received alone, and not from what
     * the role expects.
     *
     * @throws Mismatch where what the peer sent is no message, or could be several
     * @throws IOException where no message comes: the peer has ended, or the limit has passed
     */
    Message receive() throws IOException, Mismatch;

    /** Ends the connection. What has been sent still arrives. */
    void close();

    /**
     * A label, a value that is an Integer, a Boolean, a String, or null for none, and what was received, for a reader.
     */
    final class Message {
        public final String label;
        public final Object value;
        public final String received;

        /** A message; `received` is null where there is nothing to show beside the label. */
        public Message(String label, Object value, String received) {
            this.label = label;
            this.value = value;
            this.received = received;
        }

        /** Whether it has this label, and a value of this class, which is Void where it has none. */
        boolean is(String wanted, Class<?> kind) {
            return label.equals(wanted) && (value == null ? kind == Void.class : kind.isInstance(value));
        }
    }

    /** A message can't be sent. */
    final class Unfit extends Exception {
        private static final long serialVersionUID = 1;

        public Unfit(String why) {
            super(why);
        }
    }

    /** What was received is no message that may come. */
    final class Mismatch extends Exception {
        private static final long serialVersionUID = 1;

        /** What was received, in one line of printable letters. */
        public final String found;

        public Mismatch(String found, String why) {
            super(why);
            this.found = found;
        }
    }
}
