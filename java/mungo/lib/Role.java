package mungo.lib;

import java.io.IOException;
import java.io.InterruptedIOException;
import java.net.InetSocketAddress;
import java.net.SocketTimeoutException;
import java.util.Map;
import java.util.TreeMap;

/** A role of this process: its peers, and how it ends. Its calls are made by the thread that plays it. */
final class Role {
    final String name;
    private final int patience;
    private final boolean alone;
    private final Map<String, Peer> peers = new TreeMap<>();
    private String ending;
    private int status;

    /** A peer, with the message that was looked at and hasn't been taken. */
    private static final class Peer {
        final Wire wire;
        final InetSocketAddress address;
        boolean open;
        Wire.Message next;

        Peer(Wire wire, InetSocketAddress address) {
            this.wire = wire;
            this.address = address;
        }
    }

    /** Ends the thread of a role. */
    static final class Ended extends Error {
        private static final long serialVersionUID = 1;

        Ended() {
            super(null, null, false, false);
        }
    }

    /** A role that waits for so many seconds until a peer is there. One that is alone ends the process with itself. */
    Role(String name, int patience, boolean alone) {
        this.name = name;
        this.patience = patience;
        this.alone = alone;
    }

    /** Gives the role a peer. */
    void join(String peer, Wire wire, InetSocketAddress address) {
        peers.put(peer, new Peer(wire, address));
    }

    /** How it has ended, or null. */
    String ending() {
        return ending;
    }

    /** The number of its ending: 0 for `done`. */
    int status() {
        return status;
    }

    // Messages.

    void send(String to, String label, Object value) {
        Peer peer = opened(to);
        try {
            peer.wire.send(label, value);
        } catch (Wire.Unfit unfit) {
            say(Texts.name(label) + " to " + to + ": " + Texts.name(unfit.getMessage()));
            throw ends("unfit " + to + " " + Texts.name(label), 7);
        } catch (Wire.Mismatch wrong) {
            throw mismatches(to, wrong);
        } catch (IOException gone) {
            throw waits(to, gone);
        }
    }

    /** The next message of a peer, which is still to be taken. */
    Wire.Message next(String from) {
        Peer peer = opened(from);
        if (peer.next == null) {
            try {
                peer.next = peer.wire.receive();
            } catch (Wire.Mismatch wrong) {
                throw mismatches(from, wrong);
            } catch (IOException gone) {
                throw waits(from, gone);
            }
        }
        return peer.next;
    }

    Object take(String from, String label, Class<?> kind) {
        Wire.Message message = next(from);
        if (!message.is(label, kind)) {
            throw refuses(from, message.label);
        }
        peers.get(from).next = null;
        return message.value;
    }

    /** Ends the role since the next message of a peer, which has this label, isn't one that may come. */
    Ended refuses(String from, String label) {
        Wire.Message message = opened(from).next;
        if (message != null && message.received != null) {
            say(from + " sent " + message.received);
        }
        return ends("mismatch " + from + " " + Texts.name(label), 7);
    }

    private Peer opened(String name) {
        if (ending != null) {
            throw new Ended();
        }
        Peer peer = peers.get(name);
        if (peer == null) {
            throw ends("no peer " + Texts.name(name), 7);
        }
        if (!peer.open) {
            try {
                peer.wire.open(peer.address, Connection.in(patience));
                peer.open = true;
            } catch (InterruptedIOException stopped) {
                // A late connection is a SocketTimeoutException, which is one too.
                if (!(stopped instanceof SocketTimeoutException)) {
                    throw waits(name, stopped);
                }
                throw isAbsent(name, peer, stopped);
            } catch (IOException gone) {
                throw isAbsent(name, peer, gone);
            }
        }
        return peer;
    }

    private Ended isAbsent(String name, Peer peer, IOException why) {
        String at = peer.address == null ? ""
                : " at " + Texts.name(peer.address.getHostString()) + ":" + peer.address.getPort();
        say(name + at + ": " + Texts.reason(why));
        return ends("no peer " + name, 7);
    }

    private Ended mismatches(String peer, Wire.Mismatch wrong) {
        say(peer + ": " + Texts.name(wrong.getMessage()));
        return ends("mismatch " + peer + " " + Texts.name(wrong.found), 7);
    }

    private Ended waits(String peer, IOException gone) {
        if (gone.getMessage() != null) {
            say(peer + ": " + Texts.reason(gone));
        }
        return ends("waits " + peer, 8);
    }

    // Endings.

    /** Says something before the line that tells the ending. */
    private void say(String reason) {
        System.err.println(name + ": " + reason);
    }

    /** Ends this role: its thread, or the process where `main` was called by the virtual machine itself. */
    private Ended ends(String how, int number) {
        ending = how;
        status = number;
        if (alone) {
            try {
                System.out.flush();
                System.err.println(name + ": " + how);
            } finally {
                System.exit(number);
            }
        }
        return new Ended();
    }

    /** Says that the role has come to its end. */
    void returns() {
        if (ending == null) {
            ending = "done";
        }
    }

    /** Ends the role by what its thread, or one that works for it, has died of. */
    void fails(Throwable fault) {
        if (ending != null || fault instanceof Ended) {
            return;
        }
        if (isZeroDivisor(fault)) {
            ends("zero divisor", 6);
        } else if (fault instanceof StackOverflowError || fault instanceof OutOfMemoryError) {
            ends("memory", 5);
        } else {
            fault.printStackTrace();
            ends("fault", 70);
        }
    }

    /** Whether a fault is the ending of a role, and no other's affair. */
    static boolean isEnding(Throwable fault) {
        return fault instanceof Ended || fault instanceof StackOverflowError || fault instanceof OutOfMemoryError
                || isZeroDivisor(fault);
    }

    /** Whether a class that is written as checked ones are has divided by zero, and no other that it called. */
    private static boolean isZeroDivisor(Throwable fault) {
        StackTraceElement[] stack = fault.getStackTrace();
        return fault instanceof ArithmeticException && stack.length > 0 && Checked.mayBe(stack[0].getClassName());
    }

    /** Ends the connections. */
    void close() {
        peers.values().forEach(peer -> peer.wire.close());
    }
}
