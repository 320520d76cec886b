// The second buyer: accepts where the rest is at most 30.
class BMain {
    public static void main(String[] args) {
        BRole b = new BRole();
        int price = b.receive_quoteIntFromS();
        int rest = price - b.receive_shareIntFromA();
        if (rest <= 30) {
            b.send_acceptStringToS("12 Hill Street");
            System.out.println("pays " + rest + ", comes on " + b.receive_dateStringFromS());
        } else {
            b.send_quitToS();
            System.out.println("too dear");
        }
    }
}
