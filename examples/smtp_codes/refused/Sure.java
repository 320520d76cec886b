// A client that takes for granted that the server wants the text: refused.
class Sure {
    public static void main(String[] args) {
        CRole c = new CRole();
        c = CMain.greet(c);
        c = CMain.mail(c);
        c = CMain.rcpt(c, "<bob@mail.example>");
        c.send_dataToS();
        System.out.println(c.receive__354StringFromS());
        c.send_atadToS();
        c.receive__250StringFromS();
        c.send_quitToS();
        c.receive__221StringFromS();
    }
}
