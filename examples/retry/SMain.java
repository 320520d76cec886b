// The server: is busy twice, and then answers with the square.
class SMain {
    public static void main(String[] args) {
        SRole s = new SRole();
        int busy = 2;
        attempt: do {
            int x = s.receive_requestIntFromC();
            if (busy == 0) {
                s.send_resultIntToC(x * x);
                System.out.println("answered");
                break attempt;
            }
            s.send_busyToC();
            busy--;
            System.out.println("busy");
            switch (s.receive_SChoice1LabelFromC()) {
                case again:
                    s.receive_againFromC();
                    continue attempt;
                case give_up:
                    s.receive_give_upFromC();
                    break attempt;
            }
        } while (true);
    }
}
