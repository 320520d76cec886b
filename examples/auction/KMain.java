class KMain {
    public static void main(String[] args) {
        KRole k = new KRole();
        Keeper.serve(k);
    }
}
