// A counter is handed to a method, which gives it back.
class Main {
    static Counter step(Counter c, int n) {
        if (n > 0) {
            c.tick();
            return step(c, n - 1);
        }
        return c;
    }

    public static void main(String[] args) {
        Counter x = new Counter();
        int i = 0;
        while (i < 2) {
            x = step(x, i);
            i = i + 1;
        }
        x.stop();
    }
}
