// A client that stores twice without taking the answer in between: refused.
class Untaken {
    public static void main(String[] args) {
        CRole c = new CRole();
        c.send_setStringToS("a");
        c.send_putStringToS("1");
        c.send_setStringToS("b");
        c.send_putStringToS("2");
        c.receive_storedFromS();
        c.send_quitToS();
        c.receive_byeFromS();
    }
}
