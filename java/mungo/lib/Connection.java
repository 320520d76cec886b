package mungo.lib;

import java.io.ByteArrayOutputStream;
import java.io.Closeable;
import java.io.EOFException;
import java.io.IOException;
import java.io.InterruptedIOException;
import java.net.InetSocketAddress;
import java.net.SocketTimeoutException;
import java.net.StandardSocketOptions;
import java.net.UnknownHostException;
import java.nio.ByteBuffer;
import java.nio.channels.ClosedChannelException;
import java.nio.channels.ClosedSelectorException;
import java.nio.channels.SelectableChannel;
import java.nio.channels.SelectionKey;
import java.nio.channels.Selector;
import java.nio.channels.ServerSocketChannel;
import java.nio.channels.SocketChannel;
import java.security.cert.X509Certificate;
import javax.net.ssl.SSLEngine;

/**
 * A connection to a peer. Each call that waits has a moment of System.nanoTime at which it throws
 * SocketTimeoutException, and throws InterruptedIOException where its thread is interrupted. One thread may read while
 * another writes.
 */
final class Connection implements Closeable {
    /** How many bytes are read or written at once. */
    private static final int PIECE = 1 << 14;

    /** Nanoseconds between two tries to connect. */
    private static final long PAUSE = 50_000_000;

    private final SocketChannel channel;
    private final ByteBuffer buffer = ByteBuffer.allocate(PIECE);
    private final Gate reads;
    private final Gate writes;

    /** What seals and opens the bytes, or null where they go as they are. */
    private Sealed sealed;

    private Connection(SocketChannel channel) throws IOException {
        this.channel = channel;
        buffer.limit(0);
        channel.configureBlocking(false);
        channel.setOption(StandardSocketOptions.TCP_NODELAY, true);
        reads = new Gate(channel, SelectionKey.OP_READ);
        try {
            writes = new Gate(channel, SelectionKey.OP_WRITE);
        } catch (IOException fault) {
            reads.close();
            throw fault;
        }
    }

    /** The moment so many seconds from now. */
    static long in(int seconds) {
        return System.nanoTime() + seconds * 1_000_000_000L;
    }

    /** A moment that doesn't come. */
    static long never() {
        return System.nanoTime() + (1L << 62);
    }

    /** Connects to a peer, which may come later, and whose host may get its name later. */
    static Connection to(InetSocketAddress address, long until) throws IOException {
        while (true) {
            try {
                return once(address, until);
            } catch (InterruptedIOException over) {
                throw over;
            } catch (IOException later) {
                if (until - System.nanoTime() < PAUSE) {
                    throw later;
                }
                pause();
            }
        }
    }

    /** Connects to a peer that is there. */
    static Connection once(InetSocketAddress address, long until) throws IOException {
        InetSocketAddress found = resolved(address);
        SocketChannel channel = SocketChannel.open();
        try {
            channel.configureBlocking(false);
            channel.connect(found);
            try (Gate gate = new Gate(channel, SelectionKey.OP_CONNECT)) {
                while (!channel.finishConnect()) {
                    gate.await(until);
                }
            }
            return new Connection(channel);
        } catch (IOException | RuntimeException fault) {
            channel.close();
            throw fault;
        }
    }

    /** Waits at the address for the first that connects. */
    static Connection at(InetSocketAddress address, long until) throws IOException {
        try (Door door = new Door(address, 1)) {
            return door.next(until);
        }
    }

    /** Rests between two tries. */
    static void pause() throws InterruptedIOException {
        try {
            Thread.sleep(PAUSE / 1_000_000);
        } catch (InterruptedException stopped) {
            Thread.currentThread().interrupt();
            throw new InterruptedIOException("interrupted");
        }
    }

    private static InetSocketAddress resolved(InetSocketAddress address) throws IOException {
        if (address == null) {
            throw new IOException("no address is known");
        }
        InetSocketAddress found = new InetSocketAddress(address.getHostString(), address.getPort());
        if (found.isUnresolved()) {
            throw new UnknownHostException("no host has the name " + address.getHostString());
        }
        return found;
    }

    /** The next byte. Throws EOFException where the peer has ended. */
    byte readByte(long until) throws IOException {
        if (!buffer.hasRemaining()) {
            fill(until);
        }
        return buffer.get();
    }

    /** So many bytes, which take no more room than has come. Throws EOFException where the peer ends before. */
    byte[] read(int length, long until) throws IOException {
        ByteArrayOutputStream bytes = new ByteArrayOutputStream(Math.min(length, PIECE));
        while (bytes.size() < length) {
            if (!buffer.hasRemaining()) {
                fill(until);
            }
            int count = Math.min(buffer.remaining(), length - bytes.size());
            bytes.write(buffer.array(), buffer.position(), count);
            buffer.position(buffer.position() + count);
        }
        return bytes.toByteArray();
    }

    private void fill(long until) throws IOException {
        buffer.clear();
        try {
            int count = sealed == null ? read(buffer, until) : sealed.read(buffer, until);
            if (count < 0) {
                throw new EOFException("the peer has ended");
            }
        } finally {
            buffer.flip();
        }
    }

    private int read(ByteBuffer into, long until) throws IOException {
        left(until);
        int count = channel.read(into);
        while (count == 0) {
            reads.await(until);
            count = channel.read(into);
        }
        return count;
    }

    void write(byte[] bytes, long until) throws IOException {
        ByteBuffer all = ByteBuffer.wrap(bytes);
        if (sealed == null) {
            write(all, until);
        } else {
            sealed.write(all, until);
        }
    }

    private void write(ByteBuffer rest, long until) throws IOException {
        int end = rest.limit();
        while (rest.position() < end) {
            rest.limit(Math.min(end, rest.position() + PIECE));
            if (channel.write(rest) == 0) {
                writes.await(until);
            }
        }
    }

    /**
     * Goes on by TLS, by this engine, before anything else is read or written. Answers the certificate that the other
     * side has shown, or null. Throws Tls.Refused where a side doesn't take the other.
     */
    X509Certificate seal(SSLEngine engine, long until) throws IOException {
        Sealed fresh = new Sealed(engine, new Sealed.Raw() {
            @Override
            public int read(ByteBuffer into, long until) throws IOException {
                return Connection.this.read(into, until);
            }

            @Override
            public void write(ByteBuffer from, long until) throws IOException {
                Connection.this.write(from, until);
            }
        });
        fresh.begin(until);
        X509Certificate shown = Tls.shown(engine);
        sealed = fresh;
        return shown;
    }

    /** Ends the connection, also while another thread waits for it. */
    @Override
    public void close() {
        if (sealed != null && channel.isOpen()) {
            sealed.end();
        }
        try {
            channel.close();
        } catch (IOException ignored) {
            // it is gone already
        }
        reads.close();
        writes.close();
    }

    /** Milliseconds up to a moment, at least 1. */
    private static long left(long until) throws SocketTimeoutException {
        long left = (until - System.nanoTime()) / 1_000_000;
        if (left <= 0) {
            throw new SocketTimeoutException("too late");
        }
        return left;
    }

    /** Where connections come in. */
    static final class Door implements Closeable {
        private final ServerSocketChannel channel = ServerSocketChannel.open();
        private final Gate gate;

        /** A door at the address, in front of which so many may wait. */
        Door(InetSocketAddress address, int backlog) throws IOException {
            try {
                channel.configureBlocking(false);
                channel.setOption(StandardSocketOptions.SO_REUSEADDR, true);
                channel.bind(resolved(address), backlog);
                gate = new Gate(channel, SelectionKey.OP_ACCEPT);
            } catch (IOException | RuntimeException fault) {
                channel.close();
                throw fault;
            }
        }

        boolean isOpen() {
            return channel.isOpen();
        }

        /** The next that connects. */
        Connection next(long until) throws IOException {
            SocketChannel found = channel.accept();
            while (found == null) {
                gate.await(until);
                found = channel.accept();
            }
            try {
                return new Connection(found);
            } catch (IOException | RuntimeException fault) {
                found.close();
                throw fault;
            }
        }

        @Override
        public void close() {
            try {
                channel.close();
            } catch (IOException ignored) {
                // it is gone already
            }
            gate.close();
        }
    }

    /** Waits until a channel is ready for one thing. */
    private static final class Gate implements Closeable {
        private final Selector selector = Selector.open();

        Gate(SelectableChannel channel, int what) throws IOException {
            try {
                channel.register(selector, what);
            } catch (IOException fault) {
                selector.close();
                throw fault;
            }
        }

        void await(long until) throws IOException {
            try {
                if (!Thread.currentThread().isInterrupted()) {
                    selector.select(left(until));
                    selector.selectedKeys().clear();
                }
            } catch (ClosedSelectorException closed) {
                throw new ClosedChannelException();
            }
            if (Thread.currentThread().isInterrupted()) {
                throw new InterruptedIOException("interrupted");
            }
        }

        @Override
        public void close() {
            try {
                selector.close();
            } catch (IOException ignored) {
                // it is gone already
            }
        }
    }
}
