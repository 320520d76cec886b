import java.io.IOException;
import java.util.Collections;
import java.util.concurrent.ExecutorService;
import java.util.concurrent.Executors;
import java.util.concurrent.TimeUnit;
import java.util.concurrent.atomic.AtomicInteger;
import mungo.amqp.Amqp;
import mungo.lib.Service;
import mungo.lib.Session;

/**
 * The processes of the auction, of all of Java: `Auction house LINK BIDDERS`, `Auction keeper LINK BIDDERS`, `Auction
 * bidders LINK BIDDERS`, with a link as `amqp://localhost#Auction/B/H/K`. House and keeper serve until so many sessions
 * have ended.
 */
public final class Auction {
    private Auction() {}

    private static void serve(String role, Amqp link, int sessions, Runnable work) throws IOException, InterruptedException {
        Service service = Session.serve(role, link, work);
        try {
            while (service.getBegun() < sessions) {
                Thread.sleep(50);
            }
        } finally {
            service.close();
        }
        System.err.println(service);
    }

    private static void bid(Amqp link, int bidders) throws InterruptedException {
        ExecutorService hall = Executors.newFixedThreadPool(bidders);
        AtomicInteger done = new AtomicInteger();
        for (int k = 1; k <= bidders; k++) {
            int most = 10 * k;
            String name = "bidder " + k;
            hall.execute(() -> {
                String ending = play(link, () -> Bidder.bid(new BRole(), name, most));
                if (ending.equals("done")) {
                    done.incrementAndGet();
                } else {
                    System.err.println(name + ": " + ending);
                }
            });
        }
        hall.shutdown();
        hall.awaitTermination(1, TimeUnit.HOURS);
        System.out.println(done + " bidders of " + bidders + " have come to the end");
    }

    private static String play(Amqp link, Runnable work) {
        try {
            return Session.play("B", link.session("B"), Collections.emptyMap(), work);
        } catch (IOException wrong) {
            return wrong.getMessage();
        }
    }

    public static void main(String[] words) throws IOException, InterruptedException {
        Amqp link = new Amqp(words[1]);
        int bidders = Integer.parseInt(words[2]);
        switch (words[0]) {
            case "house":
                Hall.open(bidders);
                serve("H", link, bidders, () -> House.serve(new HRole()));
                break;
            case "keeper":
                serve("K", link, bidders, () -> Keeper.serve(new KRole()));
                break;
            default:
                bid(link, bidders);
        }
    }
}
