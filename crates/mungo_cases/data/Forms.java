// Every form of statement and expression, and what a class file has for it.
enum E { A, B, C, D }

@Typestate("Forms")
class O {
    int n = 70000;
    boolean b = true;
    String s = "x\ty\"z\\";
    E e = E.C;
    O next = null;

    public int get(int k) { n = n + k; return n; }

    public boolean flip(boolean c) { b = !b; return b && c; }

    public E pick(int k) {
        if (k == 0) {
            return E.A;
        } else if (k == 1) {
            return E.B;
        } else {
            e = E.D;
            return e;
        }
    }

    public String text(String t) { s = s + t; return s; }

    public void link(int k) { help(k); n = other(n, k); }

    void help(int k) { n = n * k; this.n += 1; }

    int other(int a, int c) { return a - c; }

    public void end() { }
}

class Main {
    static int fact(int n) {
        if (n <= 1) { return 1; }
        return n * fact(n - 1);
    }

    static int fib(int n) {
        if (n < 2) { return n; }
        return fib(n - 1) + fib(n - 2);
    }

    static boolean yes(String s) { System.out.println("yes " + s); return true; }

    static boolean no(String s) { System.out.println("no " + s); return false; }

    static int v(int n) { System.out.println("v" + n); return n; }

    static void groups(E e) {
        switch (e) {
            case A: System.out.println("A");
            case B: System.out.println("B"); break;
            default: System.out.println("default");
            case D: System.out.println("D");
        }
        switch (e) { case B: case C: System.out.println("B or C"); }
        switch (e) { default: }
    }

    static void finish(O o) { if (o != null) { o.end(); } }

    static void conditions() {
        System.out.println(yes("1") && no("2"));
        System.out.println(no("3") || yes("4"));
        System.out.println(!(yes("5") && yes("6")));
        System.out.println(v(1) < v(2));
        System.out.println(v(2) <= v(2));
        System.out.println(v(2) > v(2));
        System.out.println(v(2) >= v(3));
        System.out.println(v(2) == v(2));
        System.out.println(v(2) != v(2));
        System.out.println(true == false);
        System.out.println(true != false);
        System.out.println(E.A == E.B);
        System.out.println(E.C != E.B);
    }

    static void numbers() {
        System.out.println(v(1) - v(2));
        System.out.println(v(7) / v(2) * v(3) % v(4));
        int a = -1;
        a = 5; a = 6; a = -128; a = 127; a = 128; a = -129; a = 32767; a = 32768; a = -32768; a = -32769;
        a = 2147483647;
        a = a + 1;
        System.out.println(a);
        --a;
        System.out.println(a);
        System.out.println(-a);
        System.out.println(-(-2147483648));
        System.out.println(-2147483648 % -1);
        System.out.println(7 % -3);
        System.out.println(-7 % 3);
        System.out.println(65536 * 65537);
        a = 100; a += 7; a -= 3; a *= 2; a /= 3; a %= 50; a++; ++a; a--;
        System.out.println(a);
    }

    static void loops() {
        int i = 0;
        outer: while (true) {
            i++;
            int k = 0;
            do {
                k++;
                if (k == 3) { continue outer; }
                if (i == 4) { break outer; }
                if (k == 2 && i == 2) { break; }
            } while (k < 5);
            System.out.println("i" + i + "k" + k);
        }
        while (i > 0) if (i == 2) i -= 2; else { i--; }
    }

    static void texts() {
        System.out.println("a" + 1 + 2 + true + "b" + (1 + 2) + "" + false);
        System.out.println(1 + 2 + "c");
        System.out.println("a".concat("b").equals("ab"));
        System.out.println("a".equals("b"));
        System.out.println("é€ \t'\'\"\\");
        String s = "t";
        s += 1;
        s += s;
        System.out.println(s);
    }

    static void objects() {
        O o = new O();
        System.out.println(o.get(5));
        System.out.println(o.flip(true));
        System.out.println(o.flip(false));
        System.out.println(o.text("q"));
        o.link(3);
        System.out.println(o.get(0));
        switch (o.pick(1)) {
            case A: System.out.println("pick A"); break;
            case B: System.out.println("pick B"); break;
            case C: break;
            case D: break;
        }
        E e = o.pick(5);
        groups(e);
        o.end();
        O p = new O();
        finish(p);
        finish(null);
    }

    public static void main(String[] args) {
        System.out.println(fact(12));
        System.out.println(fact(13));
        System.out.println(fib(15));
        conditions();
        numbers();
        groups(E.A); groups(E.B); groups(E.C); groups(E.D);
        loops();
        texts();
        objects();
    }
}
