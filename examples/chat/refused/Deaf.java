// A room that passes on what A says, and not what B answers: refused.
class Deaf {
    public static void main(String[] args) {
        RRole r = new RRole();
        loop: do {
            switch (r.receive_RChoice1LabelFromA()) {
                case say:
                    r.send_heardStringToB(r.receive_sayStringFromA());
                    continue loop;
                case leave:
                    r.receive_leaveFromA();
                    r.send_closedToB();
                    break loop;
            }
        } while (true);
    }
}
