import java.net.InetSocketAddress;
import mungo.lib.Wire;

/** A wire of one's own: answers `no` with the word that it is named with, and what was sent. */
public final class Echo implements Wire {
    private final String word;
    private Object value;

    public Echo(String word) {
        this.word = word;
    }

    @Override
    public void open(InetSocketAddress address, long deadline) {}

    @Override
    public void send(String label, Object sent) {
        value = sent;
    }

    @Override
    public Message receive() {
        return new Message("no", word + " " + value, null);
    }

    @Override
    public void close() {}
}
