package mungo.amqp;

import com.rabbitmq.client.AMQP.BasicProperties;
import com.rabbitmq.client.BuiltinExchangeType;
import com.rabbitmq.client.Channel;
import com.rabbitmq.client.Connection;
import com.rabbitmq.client.DefaultConsumer;
import com.rabbitmq.client.Envelope;
import java.io.IOException;
import java.io.InterruptedIOException;
import java.nio.charset.StandardCharsets;
import java.util.ArrayList;
import java.util.Collections;
import java.util.LinkedHashMap;
import java.util.List;
import java.util.Map;
import java.util.concurrent.BlockingQueue;
import java.util.concurrent.LinkedBlockingQueue;
import java.util.concurrent.TimeUnit;
import java.util.concurrent.TimeoutException;
import mungo.lib.Setup;
import mungo.lib.Wire;

/**
 * Where invitations of a role come in, as long as there is room for sessions. An invitation is acknowledged when its
 * session has begun, or has come to nothing.
 */
final class Desk implements Broker.Part {
    /** Invitations that are taken at a time, and milliseconds that the queue of invitations stays without anybody. */
    private static final int AT_ONCE = 16;
    private static final int STAYS = 3_600_000;
    private static final int LAST_SECONDS = 10;

    private final Link link;
    private final String me;
    private final int most;
    private final Broker broker;
    private final BlockingQueue<Seat> ready = new LinkedBlockingQueue<>();

    /** The seats that are taken, each with the tag of its invitation, or null where that is acknowledged. */
    private final Map<Seat, Long> seats = new LinkedHashMap<>();
    private final List<Invitation> held = new ArrayList<>();
    private final List<Long> due = new ArrayList<>();
    private Channel channel;
    private String consumer;
    private boolean isClosing;
    private boolean isOver;
    private long lastly;
    private boolean isAsked;
    private int waiting = -1;
    private String told = "";

    private static final class Invitation {
        final long tag;
        final byte[] body;

        Invitation(long tag, byte[] body) {
            this.tag = tag;
            this.body = body;
        }
    }

    private Desk(Link link, String me, int most) {
        this.link = link;
        this.me = me;
        this.most = most;
        broker = Broker.of(link, this);
    }

    /** A desk of the role, with room for so many sessions. */
    static Desk of(Link link, String me, int most) {
        Desk desk = new Desk(link, me, most);
        desk.broker.ask(desk);
        return desk;
    }

    /** Makes the exchange of a protocol, and the queue of the invitations for a role. */
    static void declare(Channel channel, Link link, String role) throws IOException {
        String queue = link.invitations(role);
        channel.exchangeDeclare(link.exchange(), BuiltinExchangeType.DIRECT, true);
        channel.queueDeclare(queue, true, false, false, Collections.singletonMap("x-expires", STAYS));
        channel.queueBind(queue, link.exchange(), role);
    }

    // The side of who serves.

    /** The wires of the next session, or null where none has begun up to the moment. */
    Map<String, Wire> next(long deadline) throws IOException {
        try {
            Seat seat = ready.poll(Math.max(0, deadline - System.nanoTime()), TimeUnit.NANOSECONDS);
            return seat == null ? null : seat.wires();
        } catch (InterruptedException stopped) {
            Thread.currentThread().interrupt();
            throw new InterruptedIOException("interrupted");
        }
    }

    /** How many invitations wait, or -1 where the broker doesn't say it within a second. */
    synchronized int waiting() {
        waiting = -1;
        isAsked = true;
        broker.ask(this);
        long until = Seat.in(1);
        try {
            while (waiting < 0 && until - System.nanoTime() > 0) {
                wait(100);
            }
        } catch (InterruptedException stopped) {
            Thread.currentThread().interrupt();
        }
        return waiting;
    }

    /** Takes no further invitation. */
    synchronized void close() {
        if (!isClosing) {
            isClosing = true;
            lastly = Seat.in(LAST_SECONDS);
            broker.ask(this);
        }
        for (Seat seat = ready.poll(); seat != null; seat = ready.poll()) {
            Seat unwanted = seat;
            new Thread(unwanted::end, "mungo: " + me + " leaves").start();
        }
    }

    // What seats tell.

    /** A session has begun. */
    void opens(Seat seat) {
        ready.add(seat);
        invitationIsDue(seat, true);
    }

    /** A session is over, or has come to nothing. */
    void leaves(Seat seat) {
        invitationIsDue(seat, false);
    }

    private synchronized void invitationIsDue(Seat seat, boolean stays) {
        Long tag = seats.get(seat);
        if (tag != null) {
            due.add(tag);
        }
        if (stays) {
            seats.put(seat, null);
        } else {
            seats.remove(seat);
        }
        broker.ask(this);
    }

    // The broker's side.

    @Override
    public boolean step(Connection connection) throws IOException {
        if (channel != null && !channel.isOpen()) {
            lost(channel.getCloseReason());
        }
        if (channel == null) {
            Channel fresh = connection.createChannel();
            if (fresh == null) {
                throw new IOException("the broker gives no more channels to a connection");
            }
            fresh.basicQos(Math.min(most, AT_ONCE));
            fresh.addShutdownListener(cause -> broker.ask(this));
            declare(fresh, link, me);
            synchronized (this) {
                channel = fresh;
            }
        }
        told = "";
        listen();
        admit();
        settle();
        count();
        if (isClosing) {
            leave();
        }
        return false;
    }

    /** Listens to invitations where there is room for a session, and else leaves them to others. */
    private void listen() throws IOException {
        boolean hasRoom = hasRoom();
        if (hasRoom && consumer == null) {
            consumer = channel.basicConsume(link.invitations(me), false, new DefaultConsumer(channel) {
                @Override
                public void handleDelivery(String tag, Envelope envelope, BasicProperties properties, byte[] body) {
                    arrives(getChannel(), new Invitation(envelope.getDeliveryTag(), body));
                }
            });
        } else if (!hasRoom && consumer != null) {
            channel.basicCancel(consumer);
            consumer = null;
        }
    }

    private synchronized boolean hasRoom() {
        return !isClosing && seats.size() < most;
    }

    private synchronized void arrives(Channel of, Invitation invitation) {
        if (of == channel) {
            held.add(invitation);
            broker.ask(this);
        }
    }

    /** Takes a seat for each invitation for which there is room. */
    private void admit() throws IOException {
        List<Invitation> all;
        synchronized (this) {
            all = new ArrayList<>(held);
            held.clear();
        }
        for (Invitation invitation : all) {
            String session = sessionOf(new String(invitation.body, StandardCharsets.UTF_8));
            if (session == null || isSeated(session)) {
                channel.basicAck(invitation.tag, false);
            } else if (hasRoom()) {
                Seat seat = Seat.invited(link, me, session, this);
                synchronized (this) {
                    seats.put(seat, invitation.tag);
                }
            } else {
                channel.basicNack(invitation.tag, false, true);
            }
        }
        if (!all.isEmpty()) {
            listen();
        }
    }

    /** The name of the session to which an invitation leads, or null where it is none for roles as these. */
    private String sessionOf(String invitation) {
        String[] lines = invitation.split("\n");
        if (lines.length == 3 && lines[0].equals("mungo 1") && lines[1].matches("[0-9a-f]{32}")
                && lines[2].equals(String.join("/", link.roles))) {
            return lines[1];
        }
        String said = lines.length == 3 ? lines[2] : lines[0];
        System.err.println(me + ": an invitation to " + link.protocol + " is none of the roles " + String.join("/", link.roles)
                + ", but says " + Setup.shown(said.substring(0, Math.min(200, said.length()))));
        return null;
    }

    private synchronized boolean isSeated(String session) {
        return seats.keySet().stream().anyMatch(seat -> seat.session().equals(session));
    }

    private void settle() throws IOException {
        List<Long> tags;
        synchronized (this) {
            tags = new ArrayList<>(due);
            due.clear();
        }
        for (long tag : tags) {
            channel.basicAck(tag, false);
        }
    }

    private void count() throws IOException {
        if (isAsked) {
            int count = (int) channel.messageCount(link.invitations(me));
            synchronized (this) {
                isAsked = false;
                waiting = count;
                notifyAll();
            }
        }
    }

    /** Goes, and takes the queue of invitations away where nobody else listens to it and nothing is in it. */
    private void leave() throws IOException {
        isOver = true;
        try {
            channel.queueDelete(link.invitations(me), true, true);
            channel.close();
        } catch (IOException | TimeoutException used) {
            if (channel.isOpen()) {
                channel.abort();
            }
        }
    }

    @Override
    public synchronized void lost(Throwable why) {
        if (channel != null && channel.isOpen()) {
            Seat.abort(channel);
        }
        channel = null;
        consumer = null;
        held.clear();
        due.clear();
        seats.replaceAll((seat, tag) -> null);
        if (Seat.codeOf(why) > 0) {
            waitsFor("the broker at " + link.host + ": " + Setup.reason(why));
        }
    }

    @Override
    public synchronized boolean isOver() {
        return isOver || isClosing && System.nanoTime() - lastly > 0;
    }

    @Override
    public void waitsFor(String reason) {
        if (!told.equals(reason)) {
            told = reason;
            System.err.println(me + ": waits for " + Setup.shown(reason));
        }
    }

    /** Why no invitation has come, for a reader. */
    String reason() {
        return told.isEmpty() ? "no invitation has come" : told;
    }
}
