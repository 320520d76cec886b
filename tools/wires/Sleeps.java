import mungo.lib.Session;

/** A role S that takes a number of C, and then does something else for a long time. */
final class Sleeps {
    private Sleeps() {}

    public static void main(String[] words) throws InterruptedException {
        Session.takeInt("C", "add");
        Thread.sleep(400_000);
    }
}
