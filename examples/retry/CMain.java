// The client: asks at most five times.
class CMain {
    public static void main(String[] args) {
        CRole c = new CRole();
        int tries = 1;
        attempt: do {
            c.send_requestIntToS(7);
            switch (c.receive_CChoice1LabelFromS()) {
                case result:
                    System.out.println("result " + c.receive_resultIntFromS() + ", try " + tries);
                    break attempt;
                case busy:
                    c.receive_busyFromS();
                    if (tries == 5) {
                        c.send_give_upToS();
                        System.out.println("gave up");
                        break attempt;
                    }
                    c.send_againToS();
                    tries++;
                    continue attempt;
            }
        } while (true);
    }
}
