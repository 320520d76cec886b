import java.util.HashMap;
import java.util.Map;

/**
 * The hall, of all of Java, in the place of the one that mungo reads: it waits for the bids of so many bidders, and who
 * bid most pays what the second one bid. The sessions of the house share it.
 */
class Hall {
    private static final int MOST_SECONDS = 60;
    private static int awaited;
    private static final Map<String, Integer> BIDS = new HashMap<>();

    private Hall() {}

    /** Opens the hall for so many bidders. */
    static synchronized void open(int bidders) {
        awaited = bidders;
    }

    /** What the bidder pays, or 0 where another gets it or the bids haven't come within a minute. */
    static synchronized int price(String name, int bid) {
        BIDS.put(name, bid);
        Hall.class.notifyAll();
        long until = System.nanoTime() + MOST_SECONDS * 1_000_000_000L;
        try {
            while (BIDS.size() < awaited && until - System.nanoTime() > 0) {
                Hall.class.wait(100);
            }
        } catch (InterruptedException stopped) {
            Thread.currentThread().interrupt();
            return 0;
        }
        return BIDS.size() < awaited ? 0 : priceOf(name);
    }

    private static int priceOf(String name) {
        int second = 1;
        for (Map.Entry<String, Integer> other : BIDS.entrySet()) {
            if (!other.getKey().equals(name)) {
                if (other.getValue() >= BIDS.get(name)) {
                    return 0;
                }
                second = Math.max(second, other.getValue());
            }
        }
        return second;
    }
}
