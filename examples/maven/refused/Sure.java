package demo.mail;

/** Takes for granted that the server accepts the recipient: refused. */
public class Sure {
    public static void deliver(String from, String to, String text) {
        CRole c = new CRole();
        String server = c.receive_readyStringFromS();
        c.send_helloStringToS("client.example");
        c.send_senderStringToS(from);
        c.send_recipientStringToS(to);
        c.receive_acceptedFromS();
        c.send_textStringToS(text);
        String number = c.receive_queuedStringFromS();
        c.send_quitToS();
    }
}
