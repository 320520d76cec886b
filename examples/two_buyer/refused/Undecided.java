// A second buyer who says nothing where the book is too dear: the seller would wait. Refused.
class Undecided {
    public static void main(String[] args) {
        BRole b = new BRole();
        int price = b.receive_quoteIntFromS();
        int rest = price - b.receive_shareIntFromA();
        if (rest <= 30) {
            b.send_acceptStringToS("12 Hill Street");
            System.out.println(b.receive_dateStringFromS());
        }
    }
}
