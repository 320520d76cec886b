// A client that sends its request again without saying so: refused.
class Stubborn {
    public static void main(String[] args) {
        CRole c = new CRole();
        attempt: do {
            c.send_requestIntToS(7);
            switch (c.receive_CChoice1LabelFromS()) {
                case result:
                    System.out.println("result " + c.receive_resultIntFromS());
                    break attempt;
                case busy:
                    c.receive_busyFromS();
                    continue attempt;
            }
        } while (true);
    }
}
