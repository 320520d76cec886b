package mungo.amqp;

import java.io.EOFException;
import java.io.IOException;
import java.net.InetSocketAddress;
import java.util.ArrayDeque;
import java.util.Deque;
import mungo.lib.Codec;
import mungo.lib.Wire;

/** The messages between a role and one peer of its session. Its seat has the lock. */
final class Line implements Wire {
    private final Seat seat;
    final String peer;

    /** By which the peer marks what it sends, or null where that isn't known yet. */
    String nonce;

    /** What is sent and not confirmed, in order. */
    final Deque<Frame> outgoing = new ArrayDeque<>();

    private final Deque<Piece> incoming = new ArrayDeque<>();
    private long sent;

    /** The number of the last piece that has come, and of the last one that the role was given. */
    private long come;
    private long given;

    /** The piece that the role was given last, and which isn't acknowledged, or null. */
    private Piece current;

    /** Why nothing more comes, or null. */
    private IOException end;

    /** What the peer has sent: a message, or that it has ended. */
    private static final class Piece {
        final long tag;
        final boolean isEnd;
        final byte[] body;

        Piece(long tag, boolean isEnd, byte[] body) {
            this.tag = tag;
            this.isEnd = isEnd;
            this.body = body;
        }
    }

    Line(Seat seat, String peer) {
        this.seat = seat;
        this.peer = peer;
    }

    // The calls of the role.

    @Override
    public void open(InetSocketAddress address, long deadline) throws IOException {
        seat.open(peer, deadline);
    }

    @Override
    public void send(String label, Object value) throws IOException, Unfit {
        byte[] body = Codec.bytes(label, value);
        synchronized (seat) {
            settle();
            Frame frame = put("message", body);
            seat.ask();
            long until = seat.until();
            while (!frame.isConfirmed) {
                seat.check();
                seat.await(until, "the broker hasn't taken the message within " + seat.limit + " seconds");
            }
        }
    }

    @Override
    public Message receive() throws IOException, Mismatch {
        synchronized (seat) {
            settle();
            long until = seat.until();
            while (incoming.isEmpty()) {
                if (end != null) {
                    throw end;
                }
                seat.check();
                seat.await(until, "no message within " + seat.limit + " seconds");
            }
            current = incoming.remove();
            given++;
            if (current.isEnd) {
                settle();
                end = new EOFException();
                throw end;
            }
            return Codec.message(current.body);
        }
    }

    @Override
    public void close() {
        seat.end();
    }

    // The calls of the seat, by who has its lock.

    /** Adds what is to be sent. */
    Frame put(String type, byte[] body) {
        sent++;
        Frame frame = Frame.to(seat.queueTo(peer), type, seat.nonce, sent, body);
        outgoing.add(frame);
        return frame;
    }

    /** Acknowledges what the role has taken: it asks for something else. */
    void settle() {
        if (current != null) {
            seat.acknowledge(current.tag);
            current = null;
        }
    }

    /** Takes what has come: once, whatever comes again. */
    void arrives(long tag, long number, boolean isEnd, byte[] body) {
        if (number <= come) {
            seat.acknowledge(tag);
        } else if (number == come + 1) {
            come = number;
            incoming.add(new Piece(tag, isEnd, body));
        } else {
            ends(new IOException("messages are lost: number " + number + " has come behind number " + come));
        }
    }

    /** Whether all that has come is acknowledged. */
    boolean isClean() {
        return incoming.isEmpty() && current == null;
    }

    /** Says why nothing more comes. */
    void ends(IOException why) {
        end = end == null ? why : end;
    }

    /** The channel is gone: what wasn't taken comes again. */
    void lost() {
        incoming.clear();
        come = given;
        current = null;
        outgoing.forEach(frame -> frame.isPublished = false);
    }
}
