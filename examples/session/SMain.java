// The library: two loops, one for each protocol.
class SMain {
    public static void main(String[] args) {
        SRole s = new SRole();
        login: do {
            if (s.receive_nameStringFromC().equals("Ann")) {
                s.send_welcomeToC();
                session: do {
                    switch (s.receive_SChoice1LabelFromC()) {
                        case read:
                            s.send_pageStringToC("page " + s.receive_readIntFromC());
                            continue session;
                        case logout:
                            s.receive_logoutFromC();
                            continue login;
                        case bye:
                            s.receive_byeFromC();
                            break login;
                    }
                } while (true);
            }
            s.send_unknownToC();
            continue login;
        } while (true);
    }
}
