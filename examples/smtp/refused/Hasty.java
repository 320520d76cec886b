// A client that sends the text of a mail before it has said that the text begins: refused.
class Hasty {
    public static void main(String[] args) {
        CRole c = new CRole();
        System.out.println("server " + c.receive_readyStringFromS());
        c.send_heloStringToS("client.example");
        c.receive_welcomeFromS();
        c.send_mailStringToS("ann@client.example");
        c.receive_okFromS();
        c.send_lineStringToS("Hello");
        c.send_dotToS();
        System.out.println("queued " + c.receive_queuedIntFromS());
        c.send_quitToS();
        c.receive_closingFromS();
    }
}
