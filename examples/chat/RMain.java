// Passes on what is said, and counts it.
class RMain {
    public static void main(String[] args) {
        RRole r = new RRole();
        int count = 0;
        loop: do {
            switch (r.receive_RChoice1LabelFromA()) {
                case say:
                    r.send_heardStringToB(r.receive_sayStringFromA());
                    r.send_heardStringToA(r.receive_sayStringFromB());
                    count = count + 2;
                    continue loop;
                case leave:
                    r.receive_leaveFromA();
                    r.send_closedToB();
                    break loop;
            }
        } while (true);
        System.out.println("passed on " + count);
    }
}
