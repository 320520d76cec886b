package mungo.amqp;

import com.rabbitmq.client.AMQP.BasicProperties;
import com.rabbitmq.client.Channel;
import java.io.IOException;
import java.util.HashMap;
import java.util.Map;

/** What is published once, and again where it wasn't confirmed. */
final class Frame {
    static final String NUMBER = "mungo-number";
    static final String FROM = "mungo-from";
    private static final int DURABLE = 2;

    private final String exchange;
    private final String key;
    private BasicProperties properties;
    private final byte[] body;

    /** The role that is invited by it, or null. */
    final String role;

    /** Whether the channel that is open has it. */
    boolean isPublished;

    /** Whether the broker has it for good, or had no queue for it. */
    boolean isConfirmed;
    boolean isReturned;

    private Frame(String exchange, String key, String role, BasicProperties properties, byte[] body) {
        this.exchange = exchange;
        this.role = role;
        this.key = key;
        this.properties = properties;
        this.body = body;
    }

    /** A frame for a queue: what it is, who sends it, and its number. */
    static Frame to(String queue, String type, String from, long number, byte[] body) {
        Map<String, Object> headers = new HashMap<>();
        headers.put(FROM, from);
        headers.put(NUMBER, number);
        return new Frame("", queue, null,
                new BasicProperties.Builder().type(type).headers(headers).deliveryMode(DURABLE).build(), body);
    }

    /** An invitation of a role. */
    static Frame invitation(String exchange, String role, byte[] body) {
        return new Frame(exchange, role, role,
                new BasicProperties.Builder().type("invitation").deliveryMode(DURABLE).build(), body);
    }

    /** Says that the broker drops it after so many milliseconds. */
    void stays(long milliseconds) {
        properties = properties.builder().expiration(String.valueOf(Math.max(1, milliseconds))).build();
    }

    void publish(Channel channel) throws IOException {
        channel.basicPublish(exchange, key, role != null, properties, body);
    }

    /** A header of what has come, or null. */
    static Object header(BasicProperties properties, String name) {
        return properties.getHeaders() == null ? null : properties.getHeaders().get(name);
    }
}
