// A reader that reads without a login: refused.
class Hasty {
    public static void main(String[] args) {
        CRole c = new CRole();
        c.send_readIntToS(1);
    }
}
