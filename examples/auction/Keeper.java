// The keeper of the purse: it gives a receipt for what was sold.
class Keeper {
    static void serve(KRole k) {
        switch (k.receive_KChoice1LabelFromH()) {
            case bill:
                int price = k.receive_billIntFromH();
                System.out.println("sold for " + price);
                k.send_receiptStringToB("paid");
                break;
            case none:
                k.receive_noneFromH();
                break;
        }
    }
}
