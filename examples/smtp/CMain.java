// The client: sends one mail to two recipients, of whom the server knows one.
class CMain {
    // Names a recipient. The session is handed on, and comes back as the result.
    static CRole recipient(CRole c, String name) {
        c.send_rcptStringToS(name);
        switch (c.receive_CChoice1LabelFromS()) {
            case accepted:
                c.receive_acceptedFromS();
                System.out.println("accepted " + name);
                break;
            case rejected:
                int code = c.receive_rejectedIntFromS();
                System.out.println("rejected " + name + " " + code);
                break;
        }
        return c;
    }

    public static void main(String[] args) {
        CRole c = new CRole();
        System.out.println("server " + c.receive_readyStringFromS());
        c.send_heloStringToS("client.example");
        c.receive_welcomeFromS();
        c.send_mailStringToS("ann@client.example");
        c.receive_okFromS();
        c = recipient(c, "bob@mail.example");
        c = recipient(c, "eve@other.example");
        c.send_dataToS();
        int i = 1;
        while (i <= 2) {
            c.send_lineStringToS("line " + i);
            i++;
        }
        c.send_dotToS();
        System.out.println("queued " + c.receive_queuedIntFromS());
        c.send_quitToS();
        c.receive_closingFromS();
    }
}
