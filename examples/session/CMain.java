// The reader: is unknown by its first name, reads a page, logs in again, and reads another.
class CMain {
    public static void main(String[] args) {
        CRole c = new CRole();
        int turn = 1;
        login: do {
            if (turn == 1) {
                c.send_nameStringToS("Eve");
            } else {
                c.send_nameStringToS("Ann");
            }
            switch (c.receive_CChoice1LabelFromS()) {
                case welcome:
                    c.receive_welcomeFromS();
                    c.send_readIntToS(turn);
                    System.out.println(c.receive_pageStringFromS());
                    if (turn == 3) {
                        c.send_byeToS();
                        break login;
                    }
                    c.send_logoutToS();
                    turn++;
                    continue login;
                case unknown:
                    c.receive_unknownFromS();
                    System.out.println("unknown");
                    turn++;
                    continue login;
            }
        } while (true);
    }
}
