class BMain {
    public static void main(String[] args) {
        BRole b = new BRole();
        System.out.println(Bidder.bid(b, "ann", 70));
    }
}
