// It doesn't take the sum before it says goodbye.
class Hasty {
    public static void main(String[] args) {
        CRole c = new CRole();
        c.send_addIntToS(1);
        c.send_byeToS();
    }
}
