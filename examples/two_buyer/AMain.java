// The first buyer: pays half of the price.
class AMain {
    public static void main(String[] args) {
        ARole a = new ARole();
        a.send_titleStringToS("The Book of Tea");
        int price = a.receive_quoteIntFromS();
        a.send_shareIntToB(price / 2);
        System.out.println("pays " + price / 2 + " of " + price);
    }
}
