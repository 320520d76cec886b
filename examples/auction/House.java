// The house: it hears a bid, and says whether it is the best. The hall has the bids of all.
class House {
    static void serve(HRole h) {
        String name = h.receive_nameStringFromB();
        int bid = h.receive_bidIntFromB();
        int price = Hall.price(name, bid);
        if (price > 0) {
            h.send_soldIntToB(price);
            h.send_billIntToK(price);
        } else {
            h.send_lostIntToB(bid);
            h.send_noneToK();
        }
    }
}
