// A client that takes the page without asking whether there is one: refused.
class Hopeful {
    public static void main(String[] args) {
        CRole c = new CRole();
        c.send_getStringToS("/hello.txt");
        System.out.println(c.receive_pageStringFromS());
        c.send_closeToS();
    }
}
