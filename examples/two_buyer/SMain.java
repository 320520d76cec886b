// The seller.
class SMain {
    public static void main(String[] args) {
        SRole s = new SRole();
        String title = s.receive_titleStringFromA();
        s.send_quoteIntToA(45);
        s.send_quoteIntToB(45);
        switch (s.receive_SChoice1LabelFromB()) {
            case accept:
                System.out.println("sends " + title + " to " + s.receive_acceptStringFromB());
                s.send_dateStringToB("Monday");
                break;
            case quit:
                s.receive_quitFromB();
                System.out.println("keeps " + title);
                break;
        }
    }
}
