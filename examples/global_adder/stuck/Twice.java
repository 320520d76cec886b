// A client that talks a second time, when the server has gone: it waits for a sum that never comes.
class Twice {
    static int sum(CRole c, int n) {
        c.send_addIntToS(n);
        int total = c.receive_totalIntFromS();
        c.send_byeToS();
        return total;
    }

    public static void main(String[] args) {
        CRole first = new CRole();
        System.out.println(sum(first, 1));
        CRole second = new CRole();
        System.out.println(sum(second, 2));
    }
}
