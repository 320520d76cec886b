package mungo.lib;

import java.io.IOException;
import java.nio.ByteBuffer;
import java.util.concurrent.locks.ReentrantLock;
import javax.net.ssl.SSLEngine;
import javax.net.ssl.SSLEngineResult;
import javax.net.ssl.SSLEngineResult.HandshakeStatus;
import javax.net.ssl.SSLEngineResult.Status;
import javax.net.ssl.SSLException;

/**
 * TLS on a connection: what goes out is sealed, and what comes in opened. One thread may read while another writes, once
 * the handshake is over. Each call that waits has a moment of System.nanoTime, as those of Connection.
 */
final class Sealed {
    /** The bytes below: they are read into a buffer, less than 0 at their end, and written from one. */
    interface Raw {
        int read(ByteBuffer into, long until) throws IOException;

        void write(ByteBuffer from, long until) throws IOException;
    }

    private static final ByteBuffer NOTHING = ByteBuffer.allocate(0);

    final SSLEngine engine;
    private final Raw raw;

    /** What has come and isn't opened, from its position on. */
    private ByteBuffer coming;

    /** What is sealed and goes out, for who has the lock. */
    private final ByteBuffer going;
    private final ReentrantLock writes = new ReentrantLock();

    /** What was opened beside the handshake. */
    private ByteBuffer opened;

    Sealed(SSLEngine engine, Raw raw) {
        this.engine = engine;
        this.raw = raw;
        coming = ByteBuffer.allocate(engine.getSession().getPacketBufferSize());
        coming.limit(0);
        going = ByteBuffer.allocate(2 * engine.getSession().getPacketBufferSize());
        opened = ByteBuffer.allocate(engine.getSession().getApplicationBufferSize());
        opened.limit(0);
    }

    /** Makes the handshake. Throws Tls.Refused where a side doesn't take the other, and tells the other so. */
    void begin(long until) throws IOException {
        try {
            engine.beginHandshake();
            while (true) {
                switch (engine.getHandshakeStatus()) {
                    case NEED_TASK:
                        work();
                        break;
                    case NEED_WRAP:
                        seal(NOTHING, until);
                        break;
                    case NOT_HANDSHAKING:
                    case FINISHED:
                        return;
                    default:
                        if (open(until) < 0) {
                            throw new Tls.Refused("it ended at the handshake of TLS");
                        }
                }
            }
        } catch (SSLException fault) {
            tellFault(until);
            throw Tls.refusal(fault);
        }
    }

    /** Tells the other side why the handshake has failed, where it can be told. */
    private void tellFault(long until) {
        try {
            for (int tries = 0; tries < 4 && engine.getHandshakeStatus() == HandshakeStatus.NEED_WRAP; tries++) {
                seal(NOTHING, until);
            }
        } catch (IOException gone) {
            // it has ended
        }
    }

    private void work() {
        for (Runnable task = engine.getDelegatedTask(); task != null; task = engine.getDelegatedTask()) {
            task.run();
        }
    }

    /** Reads into the buffer. Answers how many bytes, or less than 0 at the end. */
    int read(ByteBuffer into, long until) throws IOException {
        try {
            while (!opened.hasRemaining()) {
                if (open(until) < 0) {
                    return -1;
                }
                answer(until);
            }
        } catch (SSLException fault) {
            throw Tls.refusal(fault);
        }
        int count = Math.min(into.remaining(), opened.remaining());
        into.put(opened.array(), opened.position(), count);
        opened.position(opened.position() + count);
        return count;
    }

    /** Does what the other side's keys or its end ask for. */
    private void answer(long until) throws IOException {
        if (engine.getHandshakeStatus() == HandshakeStatus.NEED_TASK) {
            work();
        }
        if (engine.getHandshakeStatus() == HandshakeStatus.NEED_WRAP && !engine.isOutboundDone()) {
            seal(NOTHING, until);
        }
    }

    /** Opens the next piece, which may have no bytes. Answers less than 0 at the end. */
    private int open(long until) throws IOException {
        opened.compact();
        try {
            while (true) {
                SSLEngineResult result = engine.unwrap(coming, opened);
                if (result.getStatus() == Status.CLOSED) {
                    return -1;
                }
                if (result.getStatus() == Status.OK) {
                    return result.bytesProduced();
                }
                if (result.getStatus() == Status.BUFFER_OVERFLOW) {
                    opened = larger(opened, engine.getSession().getApplicationBufferSize());
                } else if (more(until) < 0) {
                    return -1;
                }
            }
        } finally {
            opened.flip();
        }
    }

    private int more(long until) throws IOException {
        coming.compact();
        try {
            if (!coming.hasRemaining()) {
                coming = larger(coming, engine.getSession().getPacketBufferSize());
            }
            return raw.read(coming, until);
        } finally {
            coming.flip();
        }
    }

    /** A buffer with what this one has, and room for so many bytes more. */
    private static ByteBuffer larger(ByteBuffer full, int room) {
        ByteBuffer larger = ByteBuffer.allocate(full.position() + room);
        full.flip();
        larger.put(full);
        return larger;
    }

    /** Writes all of the buffer. */
    void write(ByteBuffer from, long until) throws IOException {
        while (from.hasRemaining()) {
            seal(from, until);
        }
    }

    private void seal(ByteBuffer from, long until) throws IOException {
        writes.lock();
        try {
            going.clear();
            SSLEngineResult result = engine.wrap(from, going);
            if (result.getStatus() == Status.CLOSED && from.hasRemaining()) {
                throw new SSLException("the connection has ended");
            }
            going.flip();
            raw.write(going, until);
        } finally {
            writes.unlock();
        }
    }

    /** Says that nothing more comes, where that can be said at once. */
    void end() {
        if (!writes.tryLock()) {
            return;
        }
        try {
            engine.closeOutbound();
            seal(NOTHING, System.nanoTime());
        } catch (IOException gone) {
            // it has ended
        } finally {
            writes.unlock();
        }
    }
}
