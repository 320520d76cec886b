package mungo.amqp;

import com.rabbitmq.client.AMQP;
import com.rabbitmq.client.AMQP.BasicProperties;
import com.rabbitmq.client.Channel;
import com.rabbitmq.client.ConfirmListener;
import com.rabbitmq.client.Connection;
import com.rabbitmq.client.DefaultConsumer;
import com.rabbitmq.client.Envelope;
import com.rabbitmq.client.Method;
import com.rabbitmq.client.ShutdownListener;
import com.rabbitmq.client.ShutdownSignalException;
import java.io.EOFException;
import java.io.IOException;
import java.io.InterruptedIOException;
import java.net.SocketTimeoutException;
import java.nio.charset.StandardCharsets;
import java.security.SecureRandom;
import java.util.ArrayList;
import java.util.Collections;
import java.util.HashSet;
import java.util.LinkedHashMap;
import java.util.List;
import java.util.Map;
import java.util.Set;
import java.util.TreeMap;
import mungo.lib.Setup;
import mungo.lib.Wire;

/**
 * A role in one session. The first role of the link makes the queues of the session, and invites the others on the
 * exchange of the protocol; each accepts by a word with its mark, and when all have, the first says `go` with the marks of
 * all. What has another mark is of nobody in this session, as of a role that was invited a second time since the first
 * invitation's confirmation was lost.
 */
final class Seat implements Broker.Part {
    /** How many messages of a peer are kept that the role hasn't taken. */
    private static final int MOST_MESSAGES = 32;
    private static final int ACCESS_REFUSED = 403;
    private static final int NOT_FOUND = 404;

    /** Seconds for what is left to be told when a role has ended. */
    private static final int LAST_SECONDS = 10;

    /** Milliseconds by which an invitation goes before its session is given up. */
    private static final int MARGIN = 200;
    private static final SecureRandom RANDOM = new SecureRandom();

    private enum State { NEW, MEETS, OPEN, ENDS, OVER }

    private final Link link;
    private final String me;
    private final String session;
    private final Desk desk;
    private final int patience;
    final int limit;

    /** By which this role marks what it sends. */
    final String nonce = mark(8);

    private final Map<String, Line> lines = new LinkedHashMap<>();
    private final List<Frame> invitations = new ArrayList<>();

    private Broker broker;
    private State state = State.NEW;

    /** Why there is no session yet, and why there is none any more. */
    private String reason = "it hasn't come";
    private IOException fault;

    /** The moment at which it is given up, where it hasn't begun, or at which its end is. */
    private long lastly;

    /** Whether all had come when it ended. */
    private boolean isMet;

    // What the broker has, by one channel.
    private Channel channel;
    private ShutdownListener shuts;
    private boolean isDeclared;
    private final Set<String> heard = new HashSet<>();
    private final Map<Long, Frame> unconfirmed = new TreeMap<>();
    private final List<Long> due = new ArrayList<>();

    private Seat(Link link, String me, String session, Desk desk) {
        Setup setup = new Setup();
        this.link = link;
        this.me = me;
        this.session = session;
        this.desk = desk;
        patience = setup.patience();
        limit = setup.limit();
        for (String role : link.roles) {
            if (!role.equals(me)) {
                lines.put(role, new Line(this, role));
            }
        }
    }

    /** The seat of the role that invites, which does so when it is opened. */
    static Seat inviting(Link link, String me) {
        Seat seat = new Seat(link, me, mark(16), null);
        byte[] body = ("mungo 1\n" + seat.session + "\n" + String.join("/", link.roles) + "\n")
                .getBytes(StandardCharsets.UTF_8);
        seat.lines.keySet().forEach(role -> seat.invitations.add(Frame.invitation(link.exchange(), role, body)));
        return seat;
    }

    /** The seat of a role that was invited to a session, which accepts. */
    static Seat invited(Link link, String me, String session, Desk desk) {
        Seat seat = new Seat(link, me, session, desk);
        synchronized (seat) {
            String host = link.roles.get(0);
            Line line = seat.lines.get(host);
            line.outgoing.add(Frame.to(seat.queueTo(host), "accept", seat.nonce, 0, new byte[0]));
            seat.begin();
        }
        return seat;
    }

    private static String mark(int bytes) {
        StringBuilder mark = new StringBuilder();
        for (int k = 0; k < bytes; k++) {
            mark.append(String.format("%02x", RANDOM.nextInt(256)));
        }
        return mark.toString();
    }

    Map<String, Wire> wires() {
        return new LinkedHashMap<>(lines);
    }

    String session() {
        return session;
    }

    String queueTo(String peer) {
        return link.queue(session, me, peer);
    }

    private String queueFrom(String peer) {
        return link.queue(session, peer, me);
    }

    // The role's side.

    private void begin() {
        state = State.MEETS;
        lastly = in(patience);
        broker = Broker.of(link, this);
        broker.ask(this);
    }

    static long in(int seconds) {
        return System.nanoTime() + seconds * 1_000_000_000L;
    }

    /** The moment up to which a message is waited for. */
    long until() {
        return in(limit);
    }

    /** Waits until all roles are there. */
    synchronized void open(String peer, long deadline) throws IOException {
        if (state == State.NEW) {
            begin();
        }
        while (state == State.MEETS) {
            await(deadline, null);
        }
        check();
    }

    /** Waits for what happens, up to a moment at which it throws SocketTimeoutException. */
    void await(long until, String late) throws IOException {
        long left = (until - System.nanoTime()) / 1_000_000;
        if (left <= 0) {
            throw new SocketTimeoutException(late == null ? reason : channel == null ? late + ", " + reason : late);
        }
        try {
            wait(left);
        } catch (InterruptedException stopped) {
            Thread.currentThread().interrupt();
            throw new InterruptedIOException("interrupted");
        }
    }

    /** Throws what has ended the session, if anything has. */
    void check() throws IOException {
        if (fault != null) {
            throw fault;
        }
        if (state != State.OPEN) {
            throw new EOFException();
        }
    }

    void ask() {
        broker.ask(this);
    }

    /** Ends the role's part: the peers are told, and its queues go. */
    void end() {
        synchronized (this) {
            if (state == State.NEW) {
                state = State.OVER;
            }
            if (state == State.MEETS || state == State.OPEN) {
                lines.values().forEach(Line::settle);
                if (state == State.OPEN) {
                    lines.values().forEach(line -> line.put("end", new byte[0]));
                }
                isMet = state == State.OPEN;
                state = State.ENDS;
                lastly = in(LAST_SECONDS);
                broker.ask(this);
            }
            try {
                while (state != State.OVER) {
                    await(lastly, "");
                }
            } catch (IOException late) {
                // the thread of the broker gives it up
            }
        }
    }

    // The broker's side: these are called by its thread alone, which doesn't wait while it has the lock.

    @Override
    public boolean step(Connection connection) throws IOException {
        if (channel != null && !channel.isOpen()) {
            lost(channel.getCloseReason());
        }
        if (isOver()) {
            return false;
        }
        if (channel == null) {
            enter();
        }
        listen();
        publish();
        settle();
        if (isSaid()) {
            leave();
        }
        synchronized (this) {
            notifyAll();
            return state != State.OPEN && state != State.OVER;
        }
    }

    private void enter() throws IOException {
        Channel fresh = broker.channel(MOST_MESSAGES);
        fresh.addConfirmListener(new Confirms(fresh));
        shuts = cause -> broker.ask(this);
        fresh.addShutdownListener(shuts);
        if (link.invites(me) && !isDeclared) {
            declare(fresh);
            isDeclared = true;
        }
        fresh.addReturnListener((code, text, exchange, role, properties, body) -> returned(fresh, role));
        synchronized (this) {
            channel = fresh;
        }
    }

    private void declare(Channel fresh) throws IOException {
        Map<String, Object> expires = Collections.singletonMap("x-expires", 1000L * (2 * patience + LAST_SECONDS));
        for (String from : link.roles) {
            for (String to : link.roles) {
                if (!from.equals(to)) {
                    fresh.queueDeclareNoWait(link.queue(session, from, to), true, false, false, expires);
                }
            }
        }
    }

    /** Consumes the queues of those from whom something may come now, each as the only one. */
    private void listen() throws IOException {
        List<String> peers = new ArrayList<>();
        synchronized (this) {
            if (state == State.OPEN || state == State.MEETS && link.invites(me)) {
                peers.addAll(lines.keySet());
            } else if (state == State.MEETS) {
                peers.add(link.roles.get(0));
            }
            peers.removeAll(heard);
        }
        for (String peer : peers) {
            channel.basicConsume(queueFrom(peer), false, "", false, true, null, new Inbox(channel, peer));
            heard.add(peer);
        }
    }

    private void publish() throws IOException {
        List<Frame> frames = new ArrayList<>();
        synchronized (this) {
            frames.addAll(invitations);
            lines.values().forEach(line -> frames.addAll(line.outgoing));
            frames.removeIf(frame -> frame.isPublished);
        }
        for (Frame frame : frames) {
            if (frame.role != null) {
                broker.declare(channel, link, frame.role);
                frame.stays((lastly - System.nanoTime()) / 1_000_000 - MARGIN);
            }
            synchronized (this) {
                frame.isPublished = true;
                unconfirmed.put(channel.getNextPublishSeqNo(), frame);
            }
            frame.publish(channel);
        }
    }

    private void settle() throws IOException {
        List<Long> tags;
        synchronized (this) {
            tags = new ArrayList<>(due);
            due.clear();
        }
        for (long tag : tags) {
            channel.basicAck(tag, false);
        }
    }

    /** Whether all is said at the end, or the time for it is over. */
    private synchronized boolean isSaid() {
        if (state == State.MEETS && desk != null && System.nanoTime() - lastly > 0) {
            state = State.ENDS;
            lastly = in(LAST_SECONDS);
        }
        boolean said = true;
        for (Line line : lines.values()) {
            said &= line.outgoing.isEmpty();
        }
        return state == State.ENDS && said;
    }

    /** Takes away the queues to this role, and all where the session didn't begin. */
    private void leave() throws IOException {
        for (String from : link.roles) {
            for (String to : link.roles) {
                if (!from.equals(to) && (to.equals(me) || link.invites(me) && !isMet)) {
                    channel.queueDeleteNoWait(link.queue(session, from, to), false, false);
                }
            }
        }
        channel.removeShutdownListener(shuts);
        boolean isClean = true;
        synchronized (this) {
            for (Line line : lines.values()) {
                isClean &= line.isClean();
            }
        }
        if (!isClean) {
            abort(channel);
        } else if (isMet || !link.invites(me) || areGone(channel)) {
            broker.give(channel);
        }
        over(null);
    }

    /** Takes away the queues of invitations which nobody listens to, if nothing is in them. Answers whether the channel goes on. */
    private boolean areGone(Channel channel) {
        try {
            for (Line line : lines.values()) {
                if (line.nonce == null) {
                    broker.forget(link.invitations(line.peer));
                    channel.queueDelete(link.invitations(line.peer), true, true);
                }
            }
            return true;
        } catch (IOException used) {
            return false;
        }
    }

    private void over(IOException why) {
        synchronized (this) {
            state = State.OVER;
            fault = fault == null ? why : fault;
            channel = null;
            notifyAll();
        }
        if (desk != null) {
            desk.leaves(this);
        }
    }

    @Override
    public void lost(Throwable why) {
        int code = codeOf(why);
        Channel old = channel;
        synchronized (this) {
            channel = null;
            heard.clear();
            unconfirmed.clear();
            due.clear();
            invitations.forEach(frame -> frame.isPublished = false);
            lines.values().forEach(Line::lost);
            if (code > 0) {
                reason = "the broker at " + link.host + " says " + Setup.shown(textOf(why));
            }
            notifyAll();
        }
        if (old != null && old.isOpen()) {
            abort(old);
        }
        if (code == NOT_FOUND) {
            over(new EOFException());
        }
    }

    static void abort(Channel old) {
        try {
            old.abort();
        } catch (IOException | RuntimeException gone) {
            // it is gone already
        }
    }

    /** The number with which the broker has closed a channel, or 0. */
    static int codeOf(Throwable why) {
        Method method = closing(why);
        return method instanceof AMQP.Channel.Close ? ((AMQP.Channel.Close) method).getReplyCode() : 0;
    }

    private static String textOf(Throwable why) {
        Method method = closing(why);
        return method instanceof AMQP.Channel.Close ? ((AMQP.Channel.Close) method).getReplyText() : String.valueOf(why);
    }

    private static Method closing(Throwable why) {
        for (Throwable cause = why; cause != null; cause = cause.getCause()) {
            if (cause instanceof ShutdownSignalException && ((ShutdownSignalException) cause).getReason() != null) {
                return ((ShutdownSignalException) cause).getReason();
            }
        }
        return null;
    }

    @Override
    public synchronized boolean isOver() {
        if (state == State.ENDS && System.nanoTime() - lastly > 0) {
            state = State.OVER;
            notifyAll();
        }
        return state == State.OVER;
    }

    @Override
    public synchronized void waitsFor(String why) {
        reason = why;
    }

    // What the broker says, by threads of its client.

    /** Says that a piece is taken. */
    void acknowledge(long tag) {
        due.add(tag);
        broker.ask(this);
    }

    /** What the broker has for good. */
    private final class Confirms implements ConfirmListener {
        private final Channel of;

        Confirms(Channel of) {
            this.of = of;
        }

        @Override
        public void handleAck(long number, boolean multiple) {
            confirmed(of, number, multiple, true);
        }

        @Override
        public void handleNack(long number, boolean multiple) {
            confirmed(of, number, multiple, false);
        }
    }

    private void confirmed(Channel of, long number, boolean multiple, boolean taken) {
        boolean goesOn = false;
        synchronized (this) {
            if (of != channel) {
                return;
            }
            List<Long> numbers = new ArrayList<>();
            for (long one : unconfirmed.keySet()) {
                if (one == number || multiple && one < number) {
                    numbers.add(one);
                }
            }
            for (long one : numbers) {
                Frame frame = unconfirmed.remove(one);
                boolean isTaken = taken && !frame.isReturned;
                frame.isConfirmed = isTaken;
                frame.isPublished = isTaken;
                frame.isReturned = false;
                goesOn |= !isTaken;
                if (isTaken) {
                    invitations.remove(frame);
                    lines.values().forEach(line -> line.outgoing.remove(frame));
                }
            }
            goesOn |= state == State.ENDS;
            notifyAll();
        }
        if (goesOn) {
            broker.ask(this);
        }
    }

    /** The queue of invitations for a role has gone meanwhile: it is made again. */
    private synchronized void returned(Channel of, String role) {
        if (of == channel) {
            broker.forget(link.invitations(role));
            invitations.stream().filter(frame -> role.equals(frame.role)).forEach(frame -> frame.isReturned = true);
        }
    }

    /** What comes from a peer. */
    private final class Inbox extends DefaultConsumer {
        private final String peer;

        Inbox(Channel of, String peer) {
            super(of);
            this.peer = peer;
        }

        @Override
        public void handleDelivery(String tag, Envelope envelope, BasicProperties properties, byte[] body) {
            arrives(getChannel(), lines.get(peer), envelope.getDeliveryTag(), properties, body);
        }

        @Override
        public void handleCancel(String tag) {
            cancelled(getChannel(), lines.get(peer));
        }
    }

    private synchronized void arrives(Channel of, Line line, long tag, BasicProperties properties, byte[] body) {
        if (of != channel || state == State.OVER) {
            return;
        }
        String from = String.valueOf(Frame.header(properties, Frame.FROM));
        Object number = Frame.header(properties, Frame.NUMBER);
        String type = String.valueOf(properties.getType());
        if (type.equals("accept") && link.invites(me)) {
            acknowledge(tag);
            accepted(line, from);
        } else if (type.equals("go") && line.peer.equals(link.roles.get(0))) {
            acknowledge(tag);
            goes(from, new String(body, StandardCharsets.UTF_8));
        } else if (!from.equals(line.nonce) || !(number instanceof Long)) {
            acknowledge(tag);
        } else {
            line.arrives(tag, (Long) number, type.equals("end"), body);
        }
        notifyAll();
    }

    /** The queue of a peer has gone: it has ended. */
    private void cancelled(Channel of, Line line) {
        synchronized (this) {
            if (of != channel) {
                return;
            }
            line.ends(new EOFException());
            if (state == State.MEETS) {
                fault = new EOFException("the session was given up");
                state = State.ENDS;
                lastly = in(LAST_SECONDS);
            }
            notifyAll();
        }
        broker.ask(this);
    }

    /** A role has come to the one that invites. When all have, they are told so. */
    private void accepted(Line line, String mark) {
        if (line.nonce != null || state != State.MEETS) {
            return;
        }
        line.nonce = mark;
        StringBuilder all = new StringBuilder(me + " " + nonce + "\n");
        for (Line one : lines.values()) {
            if (one.nonce == null) {
                reason = "the role " + one.peer + " hasn't come";
                return;
            }
            all.append(one.peer).append(' ').append(one.nonce).append('\n');
        }
        byte[] body = all.toString().getBytes(StandardCharsets.UTF_8);
        lines.values().forEach(one ->
                one.outgoing.add(Frame.to(queueTo(one.peer), "go", nonce, 0, body)));
        state = State.OPEN;
        broker.ask(this);
    }

    /** All have come, the role that invites says: with the marks of all, and so that of this role, if it is meant. */
    private void goes(String from, String marks) {
        if (state != State.MEETS) {
            return;
        }
        boolean isMeant = false;
        for (String line : marks.split("\n")) {
            String[] words = line.split(" ");
            if (words.length == 2 && lines.containsKey(words[0])) {
                lines.get(words[0]).nonce = words[1];
            }
            isMeant |= line.equals(me + " " + nonce);
        }
        if (isMeant && from.equals(lines.get(link.roles.get(0)).nonce)) {
            state = State.OPEN;
            desk.opens(this);
        } else {
            // Another has taken the invitation before.
            state = State.OVER;
            desk.leaves(this);
        }
        broker.ask(this);
    }
}
