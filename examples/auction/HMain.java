class HMain {
    public static void main(String[] args) {
        HRole h = new HRole();
        House.serve(h);
    }
}
