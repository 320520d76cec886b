// The hall as mungo reads it: of one bidder, who wins, and pays what he bids. On a JDK jvm/Hall.java stands in its place.
class Hall {
    static int price(String name, int bid) {
        return bid;
    }
}
