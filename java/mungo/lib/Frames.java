package mungo.lib;

import java.io.EOFException;
import java.io.IOException;
import java.io.InterruptedIOException;
import java.net.InetSocketAddress;
import java.net.SocketTimeoutException;
import java.util.ArrayDeque;
import java.util.Deque;

/**
 * The messages between a role and a peer that is a role of mungo in another process, over a connection.
 *
 * <p>What the peer sends is read as it comes, up to some messages and bytes that aren't taken; the rest is left to the
 * connection, by which the peer's sending waits.
 */
final class Frames implements Wire {
    private static final int MOST_MESSAGES = 1 << 16;

    private final int limit;
    private final Deque<Message> heard = new ArrayDeque<>();

    /** How many letters the texts in `heard` have. */
    private long letters;

    private Connection connection;

    /** Why the peer isn't there yet, for a reader. */
    private String reason = "it hasn't connected";

    /** Why nothing more is heard: an EOFException, a Mismatch, or what a thread has died of. */
    private Throwable end;

    /** Messages each of which may take so many seconds to come, or to be taken by the peer's side. */
    Frames(int limit) {
        this.limit = limit;
    }

    // What the threads tell that bring the peers together.

    /** Says why the peer isn't there yet. */
    synchronized void awaits(String why) {
        reason = why;
    }

    /** Whether the peer is still to come. */
    synchronized boolean isAwaited() {
        return connection == null && end == null;
    }

    /** Takes a connection to the peer, where there is none yet. */
    synchronized boolean joins(Connection found) {
        if (!isAwaited()) {
            return false;
        }
        connection = found;
        notifyAll();
        return true;
    }

    /** Says why nothing more is heard, where that isn't known yet. */
    synchronized void ends(Throwable why) {
        end = end == null ? why : end;
        notifyAll();
    }

    /** Reads what the peer sends, up to its end. */
    void hear() {
        Throwable why = new EOFException();
        try {
            while (true) {
                put(message());
            }
        } catch (Mismatch wrong) {
            why = wrong;
        } catch (IOException ended) {
            // the peer has ended, or this role has
        } catch (RuntimeException | Error fault) {
            why = fault;
        } finally {
            ends(why);
            connection.close();
        }
    }

    // The calls of the role.

    @Override
    public synchronized void open(InetSocketAddress address, long deadline) throws IOException {
        while (connection == null) {
            rethrow();
            if (end != null) {
                throw new EOFException("the role has ended");
            }
            await(deadline, reason);
        }
    }

    @Override
    public void send(String label, Object value) throws IOException, Unfit {
        byte[] frame = Codec.bytes(label, value);
        synchronized (this) {
            rethrow();
        }
        try {
            connection.write(frame, Connection.in(limit));
        } catch (SocketTimeoutException full) {
            throw new SocketTimeoutException("it has taken no message for " + limit + " seconds");
        } catch (InterruptedIOException stopped) {
            throw stopped;
        } catch (IOException gone) {
            // The peer has ended: the message is never taken, and the next one that is awaited from it says so.
        }
    }

    @Override
    public synchronized Message receive() throws IOException, Mismatch {
        long until = Connection.in(limit);
        while (heard.isEmpty()) {
            rethrow();
            if (end instanceof Mismatch) {
                throw (Mismatch) end;
            }
            if (end != null) {
                throw new EOFException();
            }
            await(until, "no message within " + limit + " seconds");
        }
        Message message = heard.remove();
        letters -= letters(message);
        notifyAll();
        return message;
    }

    @Override
    public void close() {
        ends(new EOFException());
        Connection open;
        synchronized (this) {
            open = connection;
        }
        if (open != null) {
            open.close();
        }
    }

    /** Hands on what a thread has died of. */
    private void rethrow() {
        if (end instanceof Error) {
            throw (Error) end;
        }
        if (end instanceof RuntimeException) {
            throw (RuntimeException) end;
        }
    }

    private void await(long until, String why) throws IOException {
        long left = (until - System.nanoTime()) / 1_000_000;
        if (left <= 0) {
            throw new SocketTimeoutException(why);
        }
        try {
            wait(left);
        } catch (InterruptedException stopped) {
            Thread.currentThread().interrupt();
            throw new InterruptedIOException("interrupted");
        }
    }

    private synchronized void put(Message message) throws IOException {
        while (end == null && (heard.size() >= MOST_MESSAGES || letters > Codec.LONGEST_TEXT)) {
            await(Connection.never(), "");
        }
        heard.add(message);
        letters += letters(message);
        notifyAll();
    }

    private static int letters(Message message) {
        return message.value instanceof String ? ((String) message.value).length() : 0;
    }

    /** The next message. Throws EOFException where the peer has ended before it. */
    private Message message() throws IOException, Mismatch {
        return Codec.read(count -> connection.read(count, Connection.never()));
    }
}
