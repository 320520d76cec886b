// Uses the counter after it was handed away: refused.
class Twice {
    static Counter step(Counter c) {
        c.tick();
        return c;
    }

    public static void main(String[] args) {
        Counter x = new Counter();
        Counter y = step(x);
        x.stop();
        y.stop();
    }
}
