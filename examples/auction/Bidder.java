// A bidder: it bids once, and answers what it pays.
class Bidder {
    static int bid(BRole b, String name, int most) {
        b.send_nameStringToH(name);
        b.send_bidIntToH(most);
        switch (b.receive_BChoice1LabelFromH()) {
            case sold:
                int price = b.receive_soldIntFromH();
                System.out.println(name + " pays " + price + ": " + b.receive_receiptStringFromK());
                return price;
            case lost:
                b.receive_lostIntFromH();
                break;
        }
        return 0;
    }
}
