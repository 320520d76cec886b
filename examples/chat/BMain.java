// Answers what he hears.
class BMain {
    public static void main(String[] args) {
        BRole b = new BRole();
        loop: do {
            switch (b.receive_BChoice1LabelFromR()) {
                case heard:
                    String text = b.receive_heardStringFromR();
                    System.out.println(text);
                    b.send_sayStringToR("yes, " + text);
                    continue loop;
                case closed:
                    b.receive_closedFromR();
                    break loop;
            }
        } while (true);
        System.out.println("closed");
    }
}
