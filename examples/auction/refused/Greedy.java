// A bidder who wins and doesn't take the receipt. Refused.
class Greedy {
    public static void main(String[] args) {
        BRole b = new BRole();
        b.send_nameStringToH("greedy");
        b.send_bidIntToH(70);
        switch (b.receive_BChoice1LabelFromH()) {
            case sold:
                System.out.println(b.receive_soldIntFromH());
                break;
            case lost:
                System.out.println(b.receive_lostIntFromH());
                break;
        }
    }
}
